// Measures: the CRC-32 of 16 KiB by a table, the lowest bit first, as Ethernet (IEEE 802.3) has it.
#include "measure.h"

#define WORDS 4096

static u32 table[256];
static u32 data[WORDS];

static void make_table(void)
{
    for (u32 byte = 0; byte < 256; byte++) {
        u32 left = byte;
        for (int bit = 0; bit < 8; bit++)
            left = left >> 1 ^ (left & 1 ? 0xedb88320 : 0);
        table[byte] = left;
    }
}

static u32 crc_of(const u8 *bytes, u32 len)
{
    u32 crc = ~0U;
    for (u32 i = 0; i < len; i++)
        crc = crc >> 8 ^ table[(crc ^ bytes[i]) & 255];
    return ~crc;
}

static u32 round_sum(u64 round)
{
    u64 state = round;
    for (u32 i = 0; i < WORDS; i++)
        data[i] = next_number(&state);
    return crc_of((const u8 *)data, sizeof data);
}

void run(u64 hart)
{
    (void)hart;
    u64 sum = 0;
    make_table();
    for (u64 round = 0; round < rounds; round++)
        sum = sum_with(sum, round_sum(round));
    put_sum("crc32", sum);
}
