/* Takes 1,024 MiB by calloc and writes a byte of each page of 4,096, and prints the nanoseconds that it took and how
   many pages there are. */
#include <stdint.h>
#include <stdio.h>
#include <stdlib.h>
#include <time.h>

static int64_t now(void)
{
    struct timespec t;
    clock_gettime(CLOCK_MONOTONIC, &t);
    return (int64_t)t.tv_sec * 1000000000 + t.tv_nsec;
}

int main(void)
{
    const size_t pages = 262144;
    int64_t start = now();
    volatile char *memory = calloc(pages, 4096);
    if (!memory)
        return 1;
    for (size_t i = 0; i < pages; i++)
        memory[i * 4096] = 0;
    printf("%lld %zu\n", (long long)(now() - start), pages);
    return 0;
}
