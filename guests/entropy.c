// Asks the host for random bytes: a driver of an entropy device (VIRTIO 1.2, 5.4).
#include "virtio.h"

#define VIRTIO_ID_ENTROPY 4

// Where a part of a chain begins, and how many bytes it has.
struct part {
    u16 at;
    u16 len;
};

// The parts of the first chains lie apart from each other.
enum { PARTS = 3, FEW = 20, END_OF_PARTS = 36, MANY = 4096 };
static const struct part apart[PARTS] = {{0, 5}, {16, 11}, {32, 4}};
static const struct part whole[1] = {{MANY, MANY}};

// What the device writes is at a place that is known, so it can be looked at from outside.
static volatile u8 *const room = (u8 *)0x80300000;

static volatile struct virtq queue;
static u8 first[FEW];
static u8 second[FEW];
static u8 is_there[256];

// Lets the device write these parts, and returns the used length.
static u32 ask(const struct part *parts, u16 count)
{
    for (u16 i = 0; i < count; i++) {
        u16 flags = i + 1 < count ? VIRTQ_DESC_F_WRITE | VIRTQ_DESC_F_NEXT : VIRTQ_DESC_F_WRITE;
        chain_desc(&queue, i) = (struct virtq_desc){(u64)(room + parts[i].at), parts[i].len, flags, i + 1};
    }
    if (uses(VIRTIO_F_INDIRECT_DESC))
        queue.desc[0] = named(queue.table, count);
    return use_chain(&queue, 0);
}

// The bytes of the parts, in their order. They are cleared for the next chain.
static void take(u8 *bytes)
{
    for (u16 i = 0; i < PARTS; i++)
        for (u16 at = apart[i].at; at < apart[i].at + apart[i].len; at++) {
            *bytes++ = room[at];
            room[at] = 0;
        }
}

// How many bytes are no zeros up to the end of the parts.
static u32 count_written(void)
{
    u32 written = 0;
    for (u16 at = 0; at < END_OF_PARTS; at++)
        written += room[at] != 0;
    return written;
}

static int are_alike(void)
{
    for (u16 i = 0; i < FEW; i++)
        if (first[i] != second[i])
            return 0;
    return 1;
}

static u32 count_values(void)
{
    u32 values = 0;
    for (u16 i = 0; i < MANY; i++) {
        values += !is_there[room[MANY + i]];
        is_there[room[MANY + i]] = 1;
    }
    return values;
}

static void put_used(const char *what, u32 used)
{
    put_text(what);
    put_text(": used length ");
    put_number(used);
}

void run(u64 hart)
{
    (void)hart;
    find_device(VIRTIO_ID_ENTROPY);
    bring_up(VIRTIO_F_VERSION_1, &queue);
    put_used("20 bytes in three parts", ask(apart, PARTS));
    take(first);
    put_text(count_written() == 0 ? ", and no other byte is written\n" : ", and other bytes are written\n");
    put_used("20 bytes more", ask(apart, PARTS));
    take(second);
    put_text(are_alike() ? ", and they are the same\n" : ", and they are other ones\n");
    put_used("4,096 bytes at once", ask(whole, 1));
    put_text(", and ");
    put_number(count_values());
    put_text(" values are among them\n");
}
