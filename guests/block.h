// What a driver says to a block device (VIRTIO 1.2, 5.2), by the standard's names.
#ifndef BLOCK_H
#define BLOCK_H

#include "virtio.h"

#define VIRTIO_ID_BLOCK 2
#define VIRTIO_BLK_F_FLUSH (1UL << 9)

// A request (5.2.6): this header, then the data if it has any, then a byte of status.
struct virtio_blk_req {
    u32 type;
    u32 reserved;
    u64 sector;
};

#define VIRTIO_BLK_T_IN 0
#define VIRTIO_BLK_T_OUT 1
#define VIRTIO_BLK_T_FLUSH 4
#define VIRTIO_BLK_T_GET_ID 8

#define SECTOR_SIZE 512

#endif
