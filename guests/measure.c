// The last line of a guest that measures.
#include "measure.h"

void put_sum(const char *work, u64 sum)
{
    put_text(work);
    put_text(", rounds ");
    put_number(rounds);
    put_text(", sum ");
    put_hex(sum);
    put_char('\n');
}
