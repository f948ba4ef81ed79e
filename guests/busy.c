// Does what dhry.c does while the timer interrupts it every millisecond, and tells how far it is every 16 rounds.
#include "shop.h"

// Guest time counts nanoseconds.
#define PERIOD 1000000
#define LINE 16

extern char interrupt_entry[];

static volatile u64 ticks;

static void set_timer(u64 moment)
{
    sbi_call(SBI_TIME, 0, moment, 0, 0);
}

void interrupted(u64 cause)
{
    if (cause != (1UL << 63) + 5) {
        put_text("another interrupt\n");
        shut_down();
    }
    ticks++;
    set_timer(csr_read(time) + PERIOD);
}

static void put_round(u64 round)
{
    put_text("round ");
    put_number(round);
    put_char('\n');
}

void run(u64 hart)
{
    (void)hart;
    u64 sum = 0;
    csr_write(stvec, interrupt_entry);
    set_timer(csr_read(time) + PERIOD);
    csr_set(sie, TIMER_INTERRUPT);
    csr_set(sstatus, STATUS_SIE);
    for (u64 round = 0; round < rounds; round++) {
        sum = sum_with(sum, shop_sum(round));
        if (round % LINE == LINE - 1)
            put_round(round + 1);
    }
    csr_clear(sstatus, STATUS_SIE);
    put_sum("busy", sum);
    put_number(ticks);
    put_text(" ticks\n");
}
