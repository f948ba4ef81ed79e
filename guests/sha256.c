// Measures: the SHA-256 of 4 KiB (FIPS 180-4, 5.1.1, 5.3.3 and 6.2).
#include "measure.h"

#define WORDS 1024
#define BLOCK 16

// The first 32 bits of the fractions of the cube roots of the first 64 primes (4.2.2).
static const u32 constants[64] = {
    0x428a2f98, 0x71374491, 0xb5c0fbcf, 0xe9b5dba5, 0x3956c25b, 0x59f111f1, 0x923f82a4, 0xab1c5ed5,
    0xd807aa98, 0x12835b01, 0x243185be, 0x550c7dc3, 0x72be5d74, 0x80deb1fe, 0x9bdc06a7, 0xc19bf174,
    0xe49b69c1, 0xefbe4786, 0x0fc19dc6, 0x240ca1cc, 0x2de92c6f, 0x4a7484aa, 0x5cb0a9dc, 0x76f988da,
    0x983e5152, 0xa831c66d, 0xb00327c8, 0xbf597fc7, 0xc6e00bf3, 0xd5a79147, 0x06ca6351, 0x14292967,
    0x27b70a85, 0x2e1b2138, 0x4d2c6dfc, 0x53380d13, 0x650a7354, 0x766a0abb, 0x81c2c92e, 0x92722c85,
    0xa2bfe8a1, 0xa81a664b, 0xc24b8b70, 0xc76c51a3, 0xd192e819, 0xd6990624, 0xf40e3585, 0x106aa070,
    0x19a4c116, 0x1e376c08, 0x2748774c, 0x34b0bcb5, 0x391c0cb3, 0x4ed8aa4a, 0x5b9cca4f, 0x682e6ff3,
    0x748f82ee, 0x78a5636f, 0x84c87814, 0x8cc70208, 0x90befffa, 0xa4506ceb, 0xbef9a3f7, 0xc67178f2,
};

// Words are as the standard counts them, the highest byte first. Behind the message is room for its padding.
static u32 message[WORDS + BLOCK];
static u32 schedule[64];
static u32 hash[8];

static u32 turned(u32 word, int by)
{
    return word >> by | word << (32 - by);
}

static void make_schedule(const u32 *block)
{
    for (int t = 0; t < BLOCK; t++)
        schedule[t] = block[t];
    for (int t = BLOCK; t < 64; t++) {
        u32 two = schedule[t - 2], fifteen = schedule[t - 15];
        u32 of_two = turned(two, 17) ^ turned(two, 19) ^ two >> 10;
        u32 of_fifteen = turned(fifteen, 7) ^ turned(fifteen, 18) ^ fifteen >> 3;
        schedule[t] = of_two + schedule[t - 7] + of_fifteen + schedule[t - 16];
    }
}

// 6.2.2
static void take_block(const u32 *block)
{
    u32 a = hash[0], b = hash[1], c = hash[2], d = hash[3], e = hash[4], f = hash[5], g = hash[6], h = hash[7];
    make_schedule(block);
    for (int t = 0; t < 64; t++) {
        u32 chosen = (e & f) ^ (~e & g), most = (a & b) ^ (a & c) ^ (b & c);
        u32 first = h + (turned(e, 6) ^ turned(e, 11) ^ turned(e, 25)) + chosen + constants[t] + schedule[t];
        u32 second = (turned(a, 2) ^ turned(a, 13) ^ turned(a, 22)) + most;
        h = g, g = f, f = e, e = d + first, d = c, c = b, b = a, a = first + second;
    }
    hash[0] += a, hash[1] += b, hash[2] += c, hash[3] += d;
    hash[4] += e, hash[5] += f, hash[6] += g, hash[7] += h;
}

// The first 32 bits of the fractions of the square roots of the first 8 primes (5.3.3).
static void begin(void)
{
    static const u32 first[8] = {
        0x6a09e667, 0xbb67ae85, 0x3c6ef372, 0xa54ff53a, 0x510e527f, 0x9b05688c, 0x1f83d9ab, 0x5be0cd19,
    };
    for (int i = 0; i < 8; i++)
        hash[i] = first[i];
}

static u64 round_sum(u64 round)
{
    u64 state = round, sum = 0;
    for (u32 i = 0; i < WORDS; i++)
        message[i] = next_number(&state);
    for (u32 i = WORDS; i < WORDS + BLOCK; i++)
        message[i] = 0;
    message[WORDS] = 0x80000000;
    message[WORDS + BLOCK - 1] = WORDS * 32;
    begin();
    for (u32 at = 0; at < WORDS + BLOCK; at += BLOCK)
        take_block(message + at);
    for (int i = 0; i < 8; i++)
        sum = sum_with(sum, hash[i]);
    return sum;
}

void run(u64 hart)
{
    (void)hart;
    u64 sum = 0;
    for (u64 round = 0; round < rounds; round++)
        sum = sum_with(sum, round_sum(round));
    put_sum("sha256", sum);
}
