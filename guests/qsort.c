// Measures: 2,000 numbers sorted by quicksort, and short runs by insertion.
#include "measure.h"

#define COUNT 2000
#define SHORT 12

static u32 numbers[COUNT];

static void swap(u32 *one, u32 *other)
{
    u32 held = *one;
    *one = *other;
    *other = held;
}

static void insert_each(u32 *from, u32 *to)
{
    for (u32 *next = from + 1; next < to; next++) {
        u32 held = *next, *at = next;
        for (; at > from && at[-1] > held; at--)
            *at = at[-1];
        *at = held;
    }
}

// Puts the middle one of the first, the middle and the last number in the middle.
static u32 pivot_of(u32 *from, u32 *to)
{
    u32 *middle = from + (to - from) / 2, *last = to - 1;
    if (*middle < *from)
        swap(middle, from);
    if (*last < *middle) {
        swap(last, middle);
        if (*middle < *from)
            swap(middle, from);
    }
    return *middle;
}

// Where the upper part begins: nothing before it is above the pivot, and nothing from there on below it.
static u32 *part(u32 *from, u32 *to, u32 pivot)
{
    u32 *low = from, *high = to - 1;
    for (;;) {
        while (*low < pivot)
            low++;
        while (*high > pivot)
            high--;
        if (low >= high)
            return low;
        swap(low++, high--);
    }
}

// Of two parts the smaller one is sorted by a call, so the stack stays small.
static void sort(u32 *from, u32 *to)
{
    while (to - from > SHORT) {
        u32 *upper = part(from, to, pivot_of(from, to));
        if (upper - from < to - upper) {
            sort(from, upper);
            from = upper;
        } else {
            sort(upper, to);
            to = upper;
        }
    }
    insert_each(from, to);
}

static u64 round_sum(u64 round)
{
    u64 state = round, sum = 0;
    for (u32 i = 0; i < COUNT; i++)
        numbers[i] = next_number(&state);
    sort(numbers, numbers + COUNT);
    for (u32 i = 0; i < COUNT; i++)
        sum = sum_with(sum, numbers[i]);
    return sum;
}

void run(u64 hart)
{
    (void)hart;
    u64 sum = 0;
    for (u64 round = 0; round < rounds; round++)
        sum = sum_with(sum, round_sum(round));
    put_sum("qsort", sum);
}
