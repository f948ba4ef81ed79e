// Measures: up to four harts that share code and a lock. Each draws the number of a round under the lock, computes a CRC-32 in memory of
// its own, and adds it to the sum under the lock.
#include "measure.h"

#define MOST 4
#define WORDS 64
#define STOPPED 1

extern char second_start[];

#define PAGE __attribute__((aligned(4096)))

// The page of each hart but the first, what all read, and the page that all write.
static u64 stacks[MOST][512] PAGE;
static u32 table[256];
static struct PAGE {
    unsigned lock;
    u64 drawn;
    u64 sum;
} all;

static void take(void)
{
    unsigned found, failed;
    do {
        __asm__ volatile("lr.w.aq %0, (%1)" : "=r"(found) : "r"(&all.lock) : "memory");
        failed = 1;
        if (found == 0)
            __asm__ volatile("sc.w %0, %1, (%2)" : "=&r"(failed) : "r"(1), "r"(&all.lock) : "memory");
    } while (failed);
}

static void release(void)
{
    __asm__ volatile("amoswap.w.rl zero, zero, (%0)" : : "r"(&all.lock) : "memory");
}

static void make_table(void)
{
    for (u32 byte = 0; byte < 256; byte++) {
        u32 left = byte;
        for (int bit = 0; bit < 8; bit++)
            left = left >> 1 ^ (left & 1 ? 0xedb88320 : 0);
        table[byte] = left;
    }
}

static u32 round_sum(u64 round)
{
    u32 data[WORDS];
    u64 state = round;
    for (u32 i = 0; i < WORDS; i++)
        data[i] = next_number(&state);
    u32 crc = ~0U;
    for (u32 i = 0; i < sizeof data; i++)
        crc = crc >> 8 ^ table[(crc ^ ((const u8 *)data)[i]) & 255];
    return ~crc;
}

// Rounds, until all are drawn.
static void work(void)
{
    u32 found = 0;
    for (;;) {
        take();
        all.sum += found;
        u64 round = all.drawn;
        all.drawn += round < rounds;
        release();
        if (round == rounds)
            return;
        found = round_sum(round);
    }
}

// As many others as there are.
static u64 start_others(void)
{
    u64 hart = 1;
    while (hart < MOST && sbi_call(SBI_HSM, 0, hart, (u64)second_start, (u64)stacks[hart] + sizeof stacks[hart]).error == 0)
        hart++;
    return hart;
}

void run(u64 hart)
{
    (void)hart;
    make_table();
    u64 harts = start_others();
    work();
    for (u64 other = 1; other < harts; other++)
        while (sbi_call(SBI_HSM, 2, other, 0, 0).value != STOPPED) {
        }
    put_sum("crew", all.sum);
}

void run_second(u64 hart)
{
    (void)hart;
    work();
}
