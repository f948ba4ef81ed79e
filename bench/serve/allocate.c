/* Takes MIB mebibytes by calloc in blocks of a page, as a machine does, writes a byte of each, and writes a byte to the standard
   output; then waits until its input ends. */
#include <stdio.h>
#include <stdlib.h>

int main(int count, char **words)
{
    const size_t pages = count > 1 ? strtoul(words[1], NULL, 10) * 256 : 0;
    for (size_t i = 0; i < pages; i++) {
        volatile char *page = calloc(1, 4096);
        if (!page)
            return 1;
        *page = 1;
    }
    putchar('.');
    fflush(stdout);
    return getchar() == EOF ? 0 : 2;
}
