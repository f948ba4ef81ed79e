// Measures: 8 KiB of words packed by references to what stood before (LZ77), and unpacked again.
#include "measure.h"

#define LEN 8192
#define SLOTS 1024

// A packed text is items, each with a head of one byte: below 128 so many bytes and one follow as they are; from 128 on
// as many bytes as the head's rest and LEAST are repeated from so far back as the two bytes behind it say, the lower one
// first.
#define LEAST 4
#define MOST (LEAST + 127)
#define LONGEST_RUN 128
#define REPEATS 128

static u8 text[LEN], unpacked[LEN];
static u8 packed[LEN + LEN / LONGEST_RUN + 1];
static u32 latest[SLOTS];

// Words of 2 to 9 letters, each chosen among 64.
static void write_text(u64 state)
{
    for (u32 at = 0; at < LEN;) {
        u32 word = next_number(&state) % 64, letters = 2 + word % 8;
        for (u32 i = 0; i < letters && at < LEN; i++)
            text[at++] = 'a' + (word * 7 + i * (word + 3)) % 26;
        if (at < LEN)
            text[at++] = ' ';
    }
}

static u32 slot_of(const u8 *bytes)
{
    u32 four = bytes[0] | bytes[1] << 8 | bytes[2] << 16 | (u32)bytes[3] << 24;
    return four * 2654435761U >> 22;
}

static u8 *put_run(u8 *out, u32 from, u32 to)
{
    while (from < to) {
        u32 len = to - from < LONGEST_RUN ? to - from : LONGEST_RUN;
        *out++ = len - 1;
        for (; len > 0; len--)
            *out++ = text[from++];
    }
    return out;
}

// How many bytes at `at` are as those at `before`.
static u32 alike(u32 before, u32 at)
{
    u32 most = LEN - at < MOST ? LEN - at : MOST, len = 0;
    while (len < most && text[before + len] == text[at + len])
        len++;
    return len;
}

// A slot has the latest place, counted from 1, whose four bytes led to it.
static u32 pack(void)
{
    u8 *out = packed;
    u32 run = 0, at = 0;
    for (u32 i = 0; i < SLOTS; i++)
        latest[i] = 0;
    while (at + LEAST <= LEN) {
        u32 slot = slot_of(text + at), before = latest[slot];
        u32 len = before == 0 ? 0 : alike(before - 1, at);
        latest[slot] = at + 1;
        if (len < LEAST) {
            at++;
            continue;
        }
        out = put_run(out, run, at);
        u32 back = at - (before - 1);
        *out++ = REPEATS + len - LEAST;
        *out++ = back;
        *out++ = back >> 8;
        run = at += len;
    }
    return put_run(out, run, LEN) - packed;
}

static u32 unpack(const u8 *in, const u8 *end)
{
    u8 *out = unpacked;
    while (in < end) {
        u32 head = *in++;
        const u8 *from = in;
        u32 len = head + 1;
        if (head < REPEATS) {
            in += len;
        } else {
            len = head - REPEATS + LEAST;
            from = out - (in[0] | in[1] << 8);
            in += 2;
        }
        for (; len > 0; len--)
            *out++ = *from++;
    }
    return out - unpacked;
}

static u64 round_sum(u64 round)
{
    write_text(round);
    u32 len = pack();
    u64 sum = len;
    for (u32 i = 0; i < len; i++)
        sum = sum_with(sum, packed[i]);
    if (unpack(packed, packed + len) != LEN)
        return 0;
    for (u32 i = 0; i < LEN; i++)
        if (unpacked[i] != text[i])
            return 0;
    return sum;
}

void run(u64 hart)
{
    (void)hart;
    u64 sum = 0;
    for (u64 round = 0; round < rounds; round++)
        sum = sum_with(sum, round_sum(round));
    put_sum("lz", sum);
}
