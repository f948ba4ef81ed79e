// Sends frames without a pause, or takes those that come. For each a line says when it was done, by the time that the hart reads. The
// doubleword at offset 8 of its image has how many frames there are in its lowest 40 bits, and in the next eleven the length of
// those that it sends. With its highest bit the hart waits for interrupts and not in a loop, with the next one it takes frames, and with
// the third it offers many at once, and has a line for each thousandth alone. The bits 52 and 53 are for the features of the rings.
enum { RECEIVE, TRANSMIT, QUEUES };
#define QUEUE_SIZE 16
#include "queues.c"
#include "net.h"
#include "lines.h"
#include "measure.h"

#define WAITS (1UL << 63)
#define RECEIVES (1UL << 62)
#define MANY (1UL << 61)
#define COUNT (rounds & ((1UL << 40) - 1))
#define LENGTH (rounds >> 40 & 2047)
// For local experiments (IEEE 802).
#define EXPERIMENT 0x88b5

static struct packet packets[QUEUE_SIZE] __attribute__((aligned(4096)));

static void put_frame(u32 slot, u64 number)
{
    struct frame *frame = &packets[slot].frame;
    for (u32 at = 0; at < 8; at++)
        frame->payload[at] = number >> (8 * at);
}

static void offer_frame(u64 number, u32 slot)
{
    if (rounds & RECEIVES)
        offer_at(RECEIVE, slot, &packets[slot], sizeof packets[slot], VIRTQ_DESC_F_WRITE);
    else {
        put_frame(slot, number);
        offer_at(TRANSMIT, slot, &packets[slot], sizeof packets[slot].header + LENGTH, 0);
    }
}

static void wait_until_used(u32 queue, u16 taken)
{
    if (rounds & WAITS)
        ask_for_interrupt(queue);
    while (queues[queue].used.idx == taken) {
        if (rounds & WAITS)
            wait_for_line();
        write_register(InterruptACK, read_register(InterruptStatus));
        if (read_register(Status) & DEVICE_NEEDS_RESET)
            give_up("the device needs a reset");
        barrier();
    }
}

static void begin_frames(void)
{
    struct mac own_mac = read_mac();
    for (u32 slot = 0; slot < QUEUE_SIZE; slot++) {
        struct frame *frame = &packets[slot].frame;
        for (u32 at = 0; at < sizeof own_mac; at++)
            frame->destination.byte[at] = 255;
        frame->source = own_mac;
        frame->type = BIG(EXPERIMENT);
    }
}

void run(u64 hart)
{
    (void)hart;
    find_device(VIRTIO_ID_NET);
    begin(VIRTIO_F_VERSION_1 | VIRTIO_NET_F_MAC);
    begin_frames();
    finish_with(QUEUES);
    if (rounds & WAITS)
        take_lines();
    u32 queue = rounds & RECEIVES ? RECEIVE : TRANSMIT, ahead = rounds & MANY ? QUEUE_SIZE : 1;
    for (u64 offered = 0, done = 0; done < COUNT;) {
        u64 before = offered;
        for (; offered < COUNT && offered - done < ahead; offered++)
            offer_frame(offered, offered % ahead);
        kick(queue, offered - before);
        wait_until_used(queue, done);
        for (; queues[queue].used.idx != (u16)done; done++)
            if ((rounds & MANY) == 0 || (done + 1) % 1000 == 0) {
                put_number(csr_read(time));
                put_char('\n');
            }
    }
}
