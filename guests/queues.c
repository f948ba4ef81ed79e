// What a driver of a device with several queues has beside virtio.c, which drives one (VIRTIO 1.2). It is included behind an
// enumeration of the queues, whose last name is QUEUES.
#include "virtio.c"

static volatile struct virtq queues[QUEUES];

// Sets up so many of the queues, and brings the device up with them (3.1.1).
static void finish_with(u32 count)
{
    for (u32 number = 0; number < count; number++)
        set_up_queue(number, &queues[number]);
    finish();
}

// Offers a chain of one descriptor, which the device reads or, with that flag, writes (2.7.13); it isn't told yet.
static inline void offer_at(u32 number, u32 slot, volatile void *bytes, u32 len, u16 flags)
{
    volatile struct virtq *queue = &queues[number];
    chain_desc(queue, slot) = (struct virtq_desc){(u64)bytes, len, flags, 0};
    if (uses(VIRTIO_F_INDIRECT_DESC))
        queue->desc[slot] = named(&queue->table[slot], 1);
    queue->avail.ring[queue->avail.idx % QUEUE_SIZE] = slot;
    barrier();
    queue->avail.idx++;
    barrier();
}

// The device is told of the chains that were offered last, which are so many, where it wants to be.
static inline void kick(u32 number, u16 count)
{
    if (is_kick_wanted(&queues[number], count))
        write_register(QueueNotify, number);
}

// The same of the first descriptor, and the device is told.
__attribute__((unused)) static void offer(u32 number, volatile void *bytes, u32 len, u16 flags)
{
    offer_at(number, 0, bytes, len, flags);
    kick(number, 1);
}

// The next chain of this queue that the device uses from here on is to be told by an interrupt (2.7.7). For those that are used already the
// driver looks behind it.
static inline void ask_for_interrupt(u32 number)
{
    if (!uses(VIRTIO_F_EVENT_IDX))
        return;
    *used_event(&queues[number]) = queues[number].used.idx;
    barrier();
}

// Acknowledges what there is of interrupts, and whether the device has used all that was offered in a queue.
__attribute__((unused)) static int is_used(u32 number)
{
    ask_for_interrupt(number);
    write_register(InterruptACK, read_register(InterruptStatus));
    if (read_register(Status) & DEVICE_NEEDS_RESET)
        give_up("the device needs a reset");
    barrier();
    return queues[number].used.idx == queues[number].avail.idx;
}
