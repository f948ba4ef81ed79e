// How a driver brings a virtio device up over MMIO, and lets it use a chain of its queue 0 (VIRTIO 1.2).
#include "virtio.h"

// From here on a page has the port of a device, or none.
#define FIRST_PAGE 0x10000000
#define PAGE_SIZE 0x1000

static u64 port;

static u32 read_register(enum virtio_mmio reg)
{
    return *(volatile u32 *)(port + reg);
}

static void write_register(enum virtio_mmio reg, u32 value)
{
    *(volatile u32 *)(port + reg) = value;
}

static void write_halves(enum virtio_mmio low, enum virtio_mmio high, volatile void *area)
{
    write_register(low, (u32)(u64)area);
    write_register(high, (u64)area >> 32);
}

// All accesses before it, to memory or registers, are made before those behind it.
static void barrier(void)
{
    __asm__ volatile("fence iorw, iorw" ::: "memory");
}

static void give_up(const char *why)
{
    put_text(why);
    put_char('\n');
    shut_down();
}

// Where a page has no port a read is a trap, which ends the search.
static void trapped(void)
{
    put_text("there is nothing at ");
    put_hex(csr_read(stval));
    give_up("");
}

// 4.2.3.1
void find_device(u32 id)
{
    csr_write(stvec, trapped);
    for (port = FIRST_PAGE;; port += PAGE_SIZE)
        if (read_register(MagicValue) == 0x74726976 && read_register(Version) == 2 && read_register(DeviceID) == id)
            return;
}

// 3.1.1, steps 4 to 6
static u64 agree_on_features(u64 wanted)
{
    u64 features = 0;
    for (u32 half = 0; half < 2; half++) {
        write_register(DeviceFeaturesSel, half);
        features |= (u64)read_register(DeviceFeatures) << (32 * half);
    }
    features &= wanted | RING_FEATURES;
    if ((features & RING_FEATURES) != RING_FEATURES)
        give_up("the device doesn't offer the rings' features");
    for (u32 half = 0; half < 2; half++) {
        write_register(DriverFeaturesSel, half);
        write_register(DriverFeatures, (u32)(features >> (32 * half)));
    }
    write_register(Status, ACKNOWLEDGE | DRIVER | FEATURES_OK);
    if ((read_register(Status) & FEATURES_OK) == 0)
        give_up("the device doesn't take these features");
    return features;
}

// 4.2.3.2
static void set_up_queue(u32 number, volatile struct virtq *queue)
{
    write_register(QueueSel, number);
    if (read_register(QueueReady) != 0 || read_register(QueueNumMax) < QUEUE_SIZE)
        give_up("the device has no such queue");
    write_register(QueueNum, QUEUE_SIZE);
    write_halves(QueueDescLow, QueueDescHigh, queue->desc);
    write_halves(QueueDriverLow, QueueDriverHigh, &queue->avail);
    write_halves(QueueDeviceLow, QueueDeviceHigh, &queue->used);
    write_register(QueueReady, 1);
}

// 3.1.1, steps 1 to 6
static u64 begin(u64 wanted)
{
    write_register(Status, 0);
    while (read_register(Status) != 0) {
    }
    write_register(Status, ACKNOWLEDGE);
    write_register(Status, ACKNOWLEDGE | DRIVER);
    return agree_on_features(wanted);
}

// and its last one
static void finish(void)
{
    write_register(Status, ACKNOWLEDGE | DRIVER | FEATURES_OK | DRIVER_OK);
}

u64 bring_up(u64 wanted, volatile struct virtq *queue)
{
    u64 features = begin(wanted);
    set_up_queue(0, queue);
    finish();
    return features;
}

// By words (4.2.2.2), which belong together where the configuration didn't change meanwhile (2.5.1).
u64 read_config(u32 offset)
{
    u32 before, low, high;
    do {
        before = read_register(ConfigGeneration);
        low = read_register(Config + offset);
        high = read_register(Config + offset + 4);
    } while (read_register(ConfigGeneration) != before);
    return low | (u64)high << 32;
}

// The interrupt comes behind the used index (2.7.14 and 4.2.3.4).
static void wait_for_device(volatile struct virtq *queue)
{
    do {
        u32 causes;
        do
            causes = read_register(InterruptStatus);
        while (causes == 0);
        write_register(InterruptACK, causes);
        if (read_register(Status) & DEVICE_NEEDS_RESET)
            give_up("the device needs a reset");
        barrier();
    } while (queue->used.idx != queue->avail.idx);
}

// Whether the device wants to be told of the chains that were offered last, which are so many (2.7.10).
static inline int is_kick_wanted(volatile struct virtq *queue, u16 count)
{
    return !uses(VIRTIO_F_EVENT_IDX) || (u16)(queue->avail.idx - *avail_event(queue) - 1) < count;
}

// 2.7.13
u32 use_chain(volatile struct virtq *queue, u16 head)
{
    u16 at = queue->avail.idx % QUEUE_SIZE;
    queue->avail.ring[at] = head;
    if (uses(VIRTIO_F_EVENT_IDX))
        *used_event(queue) = queue->used.idx;
    barrier();
    queue->avail.idx++;
    barrier();
    if (is_kick_wanted(queue, 1))
        write_register(QueueNotify, 0);
    wait_for_device(queue);
    return queue->used.ring[at].len;
}
