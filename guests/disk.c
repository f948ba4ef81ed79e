// Reads, writes and flushes a disk, and asks for its id: a driver of a block device (VIRTIO 1.2, 5.2).
#include "block.h"

#define ID_SIZE 20

// What the device reads and writes. Each lies in one page, so it can be foretold by how many acts that is done.
static volatile struct virtq queue;
static volatile struct virtio_blk_req req __attribute__((aligned(16)));
static volatile u8 status;
static char first[SECTOR_SIZE] __attribute__((aligned(SECTOR_SIZE)));
static char second[SECTOR_SIZE] __attribute__((aligned(SECTOR_SIZE)));
static char id[ID_SIZE] __attribute__((aligned(32)));

// Makes a request, and tells what became of it. The device writes the data, but reads that of an OUT.
static void request(const char *what, u32 type, u64 sector, char *data, u32 len)
{
    static const char *const results[] = {"ok", "an I/O error", "unsupported"};
    u16 flags = type == VIRTIO_BLK_T_OUT ? VIRTQ_DESC_F_NEXT : VIRTQ_DESC_F_NEXT | VIRTQ_DESC_F_WRITE;
    u16 last = len == 0 ? 1 : 2;
    req = (struct virtio_blk_req){type, 0, sector};
    status = 255;
    chain_desc(&queue, 0) = (struct virtq_desc){(u64)&req, sizeof req, VIRTQ_DESC_F_NEXT, 1};
    chain_desc(&queue, 1) = (struct virtq_desc){(u64)data, len, flags, 2};
    chain_desc(&queue, last) = (struct virtq_desc){(u64)&status, 1, VIRTQ_DESC_F_WRITE, 0};
    if (uses(VIRTIO_F_INDIRECT_DESC))
        queue.desc[0] = named(queue.table, last + 1);
    u32 used = use_chain(&queue, 0);
    put_text(what);
    put_text(status < 3 ? results[status] : "no status");
    put_text(", used length ");
    put_number(used);
    put_char('\n');
}

// What stands before the end of a line, or a zero.
static void put_line(const char *what, const char *bytes, u32 len)
{
    put_text(what);
    for (u32 i = 0; i < len && bytes[i] != '\n' && bytes[i] != 0; i++)
        put_char(bytes[i]);
    put_char('\n');
}

static void make_capitals(void)
{
    for (u32 i = 0; i < SECTOR_SIZE; i++)
        second[i] = first[i] >= 'a' && first[i] <= 'z' ? first[i] - 'a' + 'A' : first[i];
}

static int are_alike(void)
{
    for (u32 i = 0; i < SECTOR_SIZE; i++)
        if (first[i] != second[i])
            return 0;
    return 1;
}

void run(u64 hart)
{
    (void)hart;
    find_device(VIRTIO_ID_BLOCK);
    u64 features = bring_up(VIRTIO_F_VERSION_1 | VIRTIO_BLK_F_FLUSH, &queue);
    put_text("a disk of ");
    put_number(read_config(0));
    put_text(" sectors\n");
    request("reading sector 0: ", VIRTIO_BLK_T_IN, 0, first, SECTOR_SIZE);
    put_line("it begins: ", first, SECTOR_SIZE);
    make_capitals();
    request("writing sector 1: ", VIRTIO_BLK_T_OUT, 1, second, SECTOR_SIZE);
    if (features & VIRTIO_BLK_F_FLUSH)
        request("flushing: ", VIRTIO_BLK_T_FLUSH, 0, 0, 0);
    request("reading sector 1: ", VIRTIO_BLK_T_IN, 1, first, SECTOR_SIZE);
    put_line("it begins: ", first, SECTOR_SIZE);
    put_text(are_alike() ? "it is what was written\n" : "it isn't what was written\n");
    request("asking for the id: ", VIRTIO_BLK_T_GET_ID, 0, id, ID_SIZE);
    put_line("it is: ", id, ID_SIZE);
}
