// A guest that sieves, computes a CRC-32 and sorts, so many rounds, and then prints a sum of what came of it.
typedef unsigned char u8;
typedef unsigned int u32;
typedef unsigned long u64;

extern volatile u64 rounds;

#define SIEVE 20000
#define TEXT 8192
#define WORDS 2000

static u8 composite[SIEVE];
static u8 text[TEXT];
static u32 table[256];
static u32 words[WORDS];

static u64 sieve(void) {
    u64 primes = 0;
    for (u32 i = 0; i < SIEVE; i++) composite[i] = 0;
    for (u32 i = 2; i < SIEVE; i++) {
        if (composite[i]) continue;
        primes++;
        for (u32 k = i + i; k < SIEVE; k += i) composite[k] = 1;
    }
    return primes;
}

static void make_table(void) {
    for (u32 i = 0; i < 256; i++) {
        u32 c = i;
        for (int k = 0; k < 8; k++) c = c & 1 ? c >> 1 ^ 0xedb88320 : c >> 1;
        table[i] = c;
    }
}

static u32 crc(u64 round) {
    for (u32 i = 0; i < TEXT; i++) text[i] = (u8)(i * 7 + round);
    u32 c = 0xffffffff;
    for (u32 i = 0; i < TEXT; i++) c = table[(c ^ text[i]) & 0xff] ^ c >> 8;
    return ~c;
}

static u64 sort(u64 round) {
    u64 seed = round + 88172645463325252;
    for (u32 i = 0; i < WORDS; i++) {
        seed ^= seed << 13;
        seed ^= seed >> 7;
        seed ^= seed << 17;
        words[i] = (u32)seed;
    }
    for (u32 gap = WORDS / 2; gap > 0; gap /= 2) {
        for (u32 i = gap; i < WORDS; i++) {
            u32 word = words[i], k = i;
            for (; k >= gap && words[k - gap] > word; k -= gap) words[k] = words[k - gap];
            words[k] = word;
        }
    }
    u64 sum = 0;
    for (u32 i = 0; i < WORDS; i++) sum = sum * 31 + words[i];
    return sum;
}

static void putchar_legacy(u8 byte) {
    register u64 a0 __asm__("a0") = byte;
    register u64 a7 __asm__("a7") = 1;
    __asm__ volatile("ecall" : "+r"(a0) : "r"(a7) : "a1", "memory");
}

int main(void) {
    u64 sum = 0;
    make_table();
    for (u64 round = 0; round < rounds; round++) sum = sum * 33 + sieve() + crc(round) + sort(round);
    for (int k = 60; k >= 0; k -= 4) putchar_legacy("0123456789abcdef"[sum >> k & 15]);
    return 0;
}
