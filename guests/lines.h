// How a hart waits for the interrupt of a device, by the board's lines, which are this monitor's own.
#ifndef LINES_H
#define LINES_H

#include "guest.h"

// The lines that are pending, of which a 1 clears one, and those that hart 0 takes.
#define PENDING_LINES ((volatile u32 *)0x02000000)
#define ENABLED_LINES ((volatile u32 *)0x02000100)
#define EXTERNAL_INTERRUPT (1UL << 9)

// From here on each line ends a wait.
static inline void take_lines(void)
{
    *ENABLED_LINES = 0xffff;
    csr_set(sie, EXTERNAL_INTERRUPT);
}

// Waits until a line is pending, and clears all. A line that comes before it ends it at once.
static inline void wait_for_line(void)
{
    __asm__ volatile("wfi" ::: "memory");
    *PENDING_LINES = 0xffff;
}

#endif
