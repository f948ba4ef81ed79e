// Counts the primes below 10,000 by the sieve of Eratosthenes.
#include "guest.h"

#define LIMIT 10000

static unsigned char is_composite[LIMIT];

void run(u64 hart)
{
    (void)hart;
    u64 count = 0, last = 0;
    for (u64 n = 2; n < LIMIT; n++) {
        if (is_composite[n])
            continue;
        count++;
        last = n;
        for (u64 multiple = n * n; multiple < LIMIT; multiple += n)
            is_composite[multiple] = 1;
    }
    put_number(count);
    put_text(" primes below ");
    put_number(LIMIT);
    put_text(", the last one is ");
    put_number(last);
    put_char('\n');
}
