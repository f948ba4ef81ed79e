// The work of dhry.c and of busy.c.
#ifndef SHOP_H
#define SHOP_H

#include "measure.h"

// A shop opens and takes 150 orders: what they come to.
u64 shop_sum(u64 round);

#endif
