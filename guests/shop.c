// A shop that takes orders: records that are copied, texts that are compared, a list that is walked, calls and branches,
// as ordinary programs are made of, and as Dhrystone has them.
#include "shop.h"

#define ORDERS 150
#define MONTHS 12
#define KINDS 5
#define NAME 24

// Each call stays one.
#define APART __attribute__((noinline))

enum kind { NAILS, SCREWS, BOLTS, WASHERS, GLUE };

struct part {
    struct part *next;
    enum kind kind;
    u32 stock;
    u32 price;
    char name[NAME];
};

// What was ordered, with the part as it was left.
struct order {
    struct part part;
    u32 count;
    u32 month;
    u32 due;
};

static struct part parts[KINDS];
static struct part *first;
static u32 sold[MONTHS][KINDS];

APART static void copy_text(char *to, const char *from)
{
    while ((*to++ = *from++) != 0) {
    }
}

// Below, at or above 0, as the one stands before, at or behind the other.
APART static int compare_texts(const char *one, const char *other)
{
    while (*one == *other && *one != 0) {
        one++;
        other++;
    }
    return *one - *other;
}

APART static void write_name(char *name, enum kind kind)
{
    copy_text(name, "PARTS OF KIND ?, BOXED");
    name[14] = 'A' + kind;
}

APART static void open_shop(void)
{
    first = 0;
    for (u32 kind = 0; kind < KINDS; kind++) {
        struct part *part = &parts[kind];
        *part = (struct part){first, kind, 20, 5 + 3 * kind, ""};
        write_name(part->name, kind);
        first = part;
    }
    for (u32 month = 0; month < MONTHS; month++)
        for (u32 kind = 0; kind < KINDS; kind++)
            sold[month][kind] = 0;
}

// The part of this name, which is the list's first one from then on.
APART static struct part *find(const char *name)
{
    struct part **link = &first;
    while (compare_texts((*link)->name, name) != 0)
        link = &(*link)->next;
    struct part *part = *link;
    *link = part->next;
    part->next = first;
    first = part;
    return part;
}

APART static void restock(struct part *part, u32 month)
{
    switch (part->kind) {
    case NAILS:
    case SCREWS:
        part->stock += 100;
        break;
    case BOLTS:
        part->stock += 40;
        part->price++;
        break;
    case WASHERS:
        part->stock += 3 * sold[month][WASHERS] + 12;
        break;
    case GLUE:
        part->stock += 12;
        part->price = part->price % 50 + 7;
        break;
    }
}

// Ten and more are a tenth cheaper, and glue costs two more a piece from four on.
APART static u32 due_for(const struct part *part, u32 count)
{
    u32 price = part->price;
    if (part->kind == GLUE && count >= 4)
        price += 2;
    u32 due = price * count;
    return count >= 10 ? due - due / 10 : due;
}

APART static void take_order(struct order *order, u32 number)
{
    char name[NAME];
    write_name(name, number % KINDS);
    struct part *part = find(name);
    order->count = number / 8 % 12 + 1;
    order->month = number / 256 % MONTHS;
    if (part->stock < order->count)
        restock(part, order->month);
    part->stock -= order->count;
    sold[order->month][part->kind] += order->count;
    order->part = *part;
    order->due = due_for(part, order->count);
}

// What an order adds: its due and the stock behind it, and one more where its name stands before that of the last one.
APART static u64 worth(const struct order *order, const struct order *last)
{
    u64 worth = (u64)order->due * 256 + order->part.stock;
    return compare_texts(order->part.name, last->part.name) < 0 ? worth + 1 : worth;
}

u64 shop_sum(u64 round)
{
    struct order orders[2];
    u64 state = round, sum = 0;
    open_shop();
    orders[1].part = parts[0];
    for (u32 i = 0; i < ORDERS; i++) {
        take_order(&orders[i % 2], next_number(&state));
        sum = sum_with(sum, worth(&orders[i % 2], &orders[1 - i % 2]));
    }
    for (u32 month = 0; month < MONTHS; month++)
        for (u32 kind = 0; kind < KINDS; kind++)
            sum = sum_with(sum, sold[month][kind]);
    return sum;
}
