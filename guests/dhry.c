// Measures: a shop that takes 150 orders, which is a mix of records, texts, calls and branches.
#include "shop.h"

void run(u64 hart)
{
    (void)hart;
    u64 sum = 0;
    for (u64 round = 0; round < rounds; round++)
        sum = sum_with(sum, shop_sum(round));
    put_sum("dhry", sum);
}
