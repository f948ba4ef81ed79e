// Five ticks of the timer.
#include "guest.h"

#define TICKS 5
#define PERIOD 1000

extern char interrupt_entry[];
void wait_for_interrupt(void);

static volatile u64 ticks;
static u64 deadline;

static void set_timer(u64 moment)
{
    sbi_call(SBI_TIME, 0, moment, 0, 0);
}

// Each tick is due a period after the one before, however late that was taken; behind the last one there is none.
void interrupted(u64 cause)
{
    if (cause != (1UL << 63) + 5) {
        put_text("another interrupt\n");
        shut_down();
    }
    ticks++;
    deadline += PERIOD;
    set_timer(ticks < TICKS ? deadline : ~0UL);
}

void run(u64 hart)
{
    (void)hart;
    csr_write(stvec, interrupt_entry);
    deadline = csr_read(time) + PERIOD;
    set_timer(deadline);
    csr_set(sie, TIMER_INTERRUPT);
    for (u64 seen = 0; seen < TICKS;) {
        wait_for_interrupt();
        while (seen < ticks) {
            put_text("tick ");
            put_number(++seen);
            put_char('\n');
        }
    }
    put_text(csr_read(time) >= deadline - PERIOD ? "on time\n" : "too early\n");
}
