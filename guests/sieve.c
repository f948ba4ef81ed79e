// Measures: the primes below 20,000 by the sieve of Eratosthenes, with a byte for each number.
#include "measure.h"

#define LIMIT 20000

static u8 is_composite[LIMIT];

static void cross_off(void)
{
    for (u32 n = 0; n < LIMIT; n++)
        is_composite[n] = n < 2;
    for (u32 n = 2; n * n < LIMIT; n++)
        if (!is_composite[n])
            for (u32 multiple = n * n; multiple < LIMIT; multiple += n)
                is_composite[multiple] = 1;
}

// How many primes there are, and what they come to from the round's number on.
static u64 round_sum(u64 round)
{
    u64 count = 0, sum = round;
    cross_off();
    for (u32 n = 0; n < LIMIT; n++) {
        if (is_composite[n])
            continue;
        count++;
        sum += n;
    }
    return sum_with(count, sum);
}

void run(u64 hart)
{
    (void)hart;
    u64 sum = 0;
    for (u64 round = 0; round < rounds; round++)
        sum = sum_with(sum, round_sum(round));
    put_sum("sieve", sum);
}
