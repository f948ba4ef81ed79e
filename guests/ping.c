// Two harts send each other interrupts in turn.
#include "guest.h"

#define ROUNDS 3

extern char interrupt_entry[];
void wait_for_interrupt(void);

static volatile u64 first, answers;

static void send(u64 hart)
{
    sbi_call(SBI_IPI, 0, 1, hart, 0);
}

// Waits with SIE clear for a software interrupt, and clears it.
static void wait_for_answer(void)
{
    while ((csr_read(sip) & SOFTWARE_INTERRUPT) == 0)
        __asm__ volatile("wfi");
    csr_clear(sip, SOFTWARE_INTERRUPT);
}

void run(u64 hart)
{
    u64 other = 1 - hart;
    first = hart;
    csr_set(sie, SOFTWARE_INTERRUPT);
    if (start_second(other) != 0) {
        put_text("no other hart\n");
        return;
    }
    wait_for_answer();
    for (u64 round = 1; round <= ROUNDS; round++) {
        put_text("ping ");
        put_number(round);
        send(other);
        wait_for_answer();
        put_text(", pong ");
        put_number(answers);
        put_char('\n');
    }
    while (sbi_call(SBI_HSM, 2, other, 0, 0).value != 1) {
    }
    put_text("the other hart has stopped\n");
}

// On the second hart, which is interrupted by each ping.
void interrupted(u64 cause)
{
    csr_clear(sip, SOFTWARE_INTERRUPT);
    if (cause != (1UL << 63) + 1) {
        put_text("another interrupt\n");
        shut_down();
    }
    answers++;
    send(first);
}

void run_second(u64 hart)
{
    (void)hart;
    csr_write(stvec, interrupt_entry);
    csr_set(sie, SOFTWARE_INTERRUPT);
    send(first);
    while (answers < ROUNDS)
        wait_for_interrupt();
}
