// What the guests that measure share: how many rounds of work they make, the numbers that they work on, and the sum that
// shows what came of it.
#ifndef MEASURE_H
#define MEASURE_H

#include "guest.h"

// How many rounds are made, which is what rounds.S says, or whoever changed it there.
extern const volatile u64 rounds;

// The next number of a sequence that goes on from any state: the upper half of a product and a sum.
static inline u32 next_number(u64 *state)
{
    *state = *state * 6364136223846793005 + 1442695040888963407;
    return *state >> 32;
}

// The sum with one value more. The order of values counts.
static inline u64 sum_with(u64 sum, u64 value)
{
    return sum * 31 + value;
}

// The line that says what was done, how often, and its sum.
void put_sum(const char *work, u64 sum);

#endif
