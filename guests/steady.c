// Uses a disk without a pause: writes 16 KiB and reads them again, one request after another, from its beginning on and, behind
// its end, from there again. A round is both. For each request a line says when it was done, by the time that the hart reads.
// The hart polls for the answers, or it waits for the disk's interrupt where the highest bit of what it has for rounds is set.
#include "virtio.c"
#include "block.h"
#include "lines.h"
#include "measure.h"

#define LENGTH 16384
#define WAITS (1UL << 63)

static volatile struct virtq queue;
static volatile struct virtio_blk_req req __attribute__((aligned(16)));
static volatile u8 status;
static volatile u64 data[LENGTH / 8] __attribute__((aligned(4096)));

static void give_up_at(const char *why, u64 sector)
{
    put_text(why);
    put_number(sector);
    put_char('\n');
    shut_down();
}

// The used index comes before the interrupt, and so before the line that ends a WFI.
static void wait_until_used(void)
{
    while (queue.used.idx != queue.avail.idx) {
        if (rounds & WAITS)
            __asm__ volatile("wfi" ::: "memory");
        *PENDING_LINES = 0xffff;
        write_register(InterruptACK, read_register(InterruptStatus));
        if (read_register(Status) & DEVICE_NEEDS_RESET)
            give_up("the device needs a reset");
        barrier();
    }
}

static void request(u32 type, u64 sector)
{
    u16 flags = type == VIRTIO_BLK_T_OUT ? VIRTQ_DESC_F_NEXT : VIRTQ_DESC_F_NEXT | VIRTQ_DESC_F_WRITE;
    req = (struct virtio_blk_req){type, 0, sector};
    status = 255;
    queue.desc[0] = (struct virtq_desc){(u64)&req, sizeof req, VIRTQ_DESC_F_NEXT, 1};
    queue.desc[1] = (struct virtq_desc){(u64)data, LENGTH, flags, 2};
    queue.desc[2] = (struct virtq_desc){(u64)&status, 1, VIRTQ_DESC_F_WRITE, 0};
    queue.avail.ring[queue.avail.idx % QUEUE_SIZE] = 0;
    barrier();
    queue.avail.idx++;
    barrier();
    write_register(QueueNotify, 0);
    wait_until_used();
    u64 moment = csr_read(time);
    if (status != 0)
        give_up_at("no success at sector ", sector);
    put_number(moment);
    put_char('\n');
}

// The first and the last word of what is written say where and in which round.
static void write_and_read(u64 round, u64 sector)
{
    data[0] = sector;
    data[LENGTH / 8 - 1] = round;
    request(VIRTIO_BLK_T_OUT, sector);
    data[0] = data[LENGTH / 8 - 1] = ~0UL;
    request(VIRTIO_BLK_T_IN, sector);
    if (data[0] != sector || data[LENGTH / 8 - 1] != round)
        give_up_at("not what was written at sector ", sector);
}

void run(u64 hart)
{
    (void)hart;
    find_device(VIRTIO_ID_BLOCK);
    bring_up(VIRTIO_F_VERSION_1, &queue);
    u64 places = read_config(0) / (LENGTH / SECTOR_SIZE);
    if (places == 0)
        give_up_at("too few sectors: ", read_config(0));
    take_lines();
    for (u64 round = 0; round < (rounds & ~WAITS); round++)
        write_and_read(round, round % places * (LENGTH / SECTOR_SIZE));
}
