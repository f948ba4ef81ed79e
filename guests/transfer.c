// Measures a disk: writes it and reads it again from its beginning on, one request after another, 64 KiB at a time and then
// 512 bytes at a time, as many requests of each as there are rounds. A line stands behind each of the four. The bits 52 and 53 of what it has
// for rounds are for the features of the rings.
#include "block.h"
#include "measure.h"

#define LARGE 65536
#define COUNT (rounds & ((1UL << 52) - 1))

static volatile struct virtq queue;
static volatile struct virtio_blk_req req __attribute__((aligned(16)));
static volatile u8 status;
static volatile u64 data[LARGE / 8] __attribute__((aligned(4096)));

static void give_up(const char *why, u64 sector)
{
    put_text(why);
    put_number(sector);
    put_char('\n');
    shut_down();
}

static void request(u32 type, u64 sector, u32 len)
{
    u16 flags = type == VIRTIO_BLK_T_OUT ? VIRTQ_DESC_F_NEXT : VIRTQ_DESC_F_NEXT | VIRTQ_DESC_F_WRITE;
    req = (struct virtio_blk_req){type, 0, sector};
    status = 255;
    chain_desc(&queue, 0) = (struct virtq_desc){(u64)&req, sizeof req, VIRTQ_DESC_F_NEXT, 1};
    chain_desc(&queue, 1) = (struct virtq_desc){(u64)data, len, flags, 2};
    chain_desc(&queue, 2) = (struct virtq_desc){(u64)&status, 1, VIRTQ_DESC_F_WRITE, 0};
    if (uses(VIRTIO_F_INDIRECT_DESC))
        queue.desc[0] = named(queue.table, 3);
    use_chain(&queue, 0);
    if (status != 0)
        give_up("no success at sector ", sector);
}

// The first and the last word of what is written say where.
static void write_each(u32 len)
{
    for (u64 i = 0; i < COUNT; i++) {
        u64 sector = i * (len / SECTOR_SIZE);
        data[0] = sector;
        data[len / 8 - 1] = ~sector;
        request(VIRTIO_BLK_T_OUT, sector, len);
    }
}

static void read_each(u32 len)
{
    for (u64 i = 0; i < COUNT; i++) {
        u64 sector = i * (len / SECTOR_SIZE);
        request(VIRTIO_BLK_T_IN, sector, len);
        if (data[0] != sector || data[len / 8 - 1] != ~sector)
            give_up("another sector was read than ", sector);
    }
}

void run(u64 hart)
{
    (void)hart;
    find_device(VIRTIO_ID_BLOCK);
    // A driver that can flush lets the device answer a write before it is on the disk itself.
    bring_up(VIRTIO_F_VERSION_1 | VIRTIO_BLK_F_FLUSH, &queue);
    if (read_config(0) < COUNT * (LARGE / SECTOR_SIZE))
        give_up("the disk has too few sectors for rounds ", COUNT);
    for (u64 i = 0; i < LARGE / 8; i++)
        data[i] = i * 6364136223846793005;
    put_text("ready\n");
    write_each(LARGE);
    put_text("64 KiB at a time: written\n");
    read_each(LARGE);
    put_text("64 KiB at a time: read\n");
    write_each(SECTOR_SIZE);
    put_text("512 bytes at a time: written\n");
    read_each(SECTOR_SIZE);
    put_text("512 bytes at a time: read\n");
}
