// Two harts count under one lock, which is taken by LR and SC.
#include "guest.h"

#define ROUNDS 1000

static unsigned lock;
static volatile u64 count;

static void take(void)
{
    unsigned found, failed;
    do {
        __asm__ volatile("lr.w.aq %0, (%1)" : "=r"(found) : "r"(&lock) : "memory");
        failed = 1;
        if (found == 0)
            __asm__ volatile("sc.w %0, %1, (%2)" : "=&r"(failed) : "r"(1), "r"(&lock) : "memory");
    } while (failed);
}

static void release(void)
{
    __asm__ volatile("amoswap.w.rl zero, zero, (%0)" : : "r"(&lock) : "memory");
}

static void count_up(void)
{
    for (int round = 0; round < ROUNDS; round++) {
        take();
        count++;
        release();
    }
}

void run(u64 hart)
{
    u64 other = 1 - hart;
    if (start_second(other) != 0) {
        put_text("no other hart\n");
        return;
    }
    count_up();
    while (sbi_call(SBI_HSM, 2, other, 0, 0).value != 1) {
    }
    put_text("two harts counted to ");
    put_number(count);
    put_char('\n');
}

void run_second(u64 hart)
{
    (void)hart;
    count_up();
}
