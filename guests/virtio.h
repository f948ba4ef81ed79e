// What a driver says to a virtio device over MMIO (VIRTIO 1.2), by the standard's names.
#ifndef VIRTIO_H
#define VIRTIO_H

#include "guest.h"

// Where the registers are in the device's port (4.2.2).
enum virtio_mmio {
    MagicValue = 0x000,
    Version = 0x004,
    DeviceID = 0x008,
    DeviceFeatures = 0x010,
    DeviceFeaturesSel = 0x014,
    DriverFeatures = 0x020,
    DriverFeaturesSel = 0x024,
    QueueSel = 0x030,
    QueueNumMax = 0x034,
    QueueNum = 0x038,
    QueueReady = 0x044,
    QueueNotify = 0x050,
    InterruptStatus = 0x060,
    InterruptACK = 0x064,
    Status = 0x070,
    QueueDescLow = 0x080,
    QueueDescHigh = 0x084,
    QueueDriverLow = 0x090,
    QueueDriverHigh = 0x094,
    QueueDeviceLow = 0x0a0,
    QueueDeviceHigh = 0x0a4,
    ConfigGeneration = 0x0fc,
    Config = 0x100,
};

// Bits of Status (2.1).
#define ACKNOWLEDGE 1
#define DRIVER 2
#define DRIVER_OK 4
#define FEATURES_OK 8
#define DEVICE_NEEDS_RESET 64

// The feature that a driver by this standard accepts (6.1).
#define VIRTIO_F_VERSION_1 (1UL << 32)

// Features of the rings (6): a chain may stand in a table of its own, which one descriptor names (2.7.5.3), and each side says behind
// which index it wants to be told (2.7.7 and 2.7.10).
#define VIRTIO_F_INDIRECT_DESC (1UL << 28)
#define VIRTIO_F_EVENT_IDX (1UL << 29)

// Those that the driver uses: none, where it isn't built with some, and then its queues have no room for tables and indexes.
#ifdef RING_FEATURES
#define IF_USED(room) (room)
extern const volatile u64 rounds;
#else
#define RING_FEATURES 0
#define IF_USED(room) 0
#endif
#define uses(feature) ((RING_FEATURES & (feature)) != 0)

// A descriptor of a chain, which stands in a table of its own or in that of the queue.
#define chain_desc(queue, index) (*(uses(VIRTIO_F_INDIRECT_DESC) ? &(queue)->table[index] : &(queue)->desc[index]))

// How many descriptors a queue has, which is a split one (2.7).
#ifndef QUEUE_SIZE
#define QUEUE_SIZE 4
#endif

#define VIRTQ_DESC_F_NEXT 1
#define VIRTQ_DESC_F_WRITE 2
#define VIRTQ_DESC_F_INDIRECT 4

struct virtq_desc {
    u64 addr;
    u32 len;
    u16 flags;
    u16 next;
};

struct virtq_avail {
    u16 flags;
    u16 idx;
    u16 ring[QUEUE_SIZE + IF_USED(1)];
};

struct virtq_used_elem {
    u32 id;
    u32 len;
};

struct virtq_used {
    u16 flags;
    u16 idx;
    struct virtq_used_elem ring[QUEUE_SIZE + IF_USED(1)];
};

// Its three areas, which are so small that they lie in one page, and the descriptors of tables that aren't the queue's own.
struct virtq {
    struct virtq_desc desc[QUEUE_SIZE];
    struct virtq_avail avail;
    struct virtq_used used;
    struct virtq_desc table[IF_USED(QUEUE_SIZE)];
} __attribute__((aligned(128)));

// Behind either ring: the used index whose increment the driver wants to be told of, and the available index of which the device wants that.
static inline volatile u16 *used_event(volatile struct virtq *queue)
{
    return queue->avail.ring + QUEUE_SIZE;
}

static inline volatile u16 *avail_event(volatile struct virtq *queue)
{
    return (volatile u16 *)(queue->used.ring + QUEUE_SIZE);
}

// A chain that stands in a table of its own (2.7.5.3).
static inline struct virtq_desc named(volatile struct virtq_desc *table, u32 count)
{
    return (struct virtq_desc){(u64)table, count * sizeof *table, VIRTQ_DESC_F_INDIRECT, 0};
}

// Looks for the device of this type. What follows is done with it. Where a driver can't go on it says why, and turns the
// machine off.
void find_device(u32 id);

// Brings the device up with its queue 0, and with those of these features that it offers, which are returned. It has to offer those of the rings.
u64 bring_up(u64 wanted, volatile struct virtq *queue);

// A field of 64 bits in its configuration.
u64 read_config(u32 offset);

// Offers the chain that begins at this descriptor, and waits until it is used: its used length.
u32 use_chain(volatile struct virtq *queue, u16 head);

#endif
