// Gives memory back to the host and takes it again, and tells how much it has left: a driver of a memory balloon (VIRTIO 1.2,
// 5.5).

// Its queues, of which the last is there for statistics alone.
enum { INFLATE, DEFLATE, STATS, QUEUES };
#include "queues.c"

#define VIRTIO_ID_BALLOON 5
#define VIRTIO_BALLOON_F_STATS_VQ (1UL << 1)

// Its configuration: how many pages the balloon is to have, and how many it has.
#define NUM_PAGES Config
#define ACTUAL (Config + 4)

#define VIRTIO_BALLOON_S_MEMFREE 4
#define VIRTIO_BALLOON_S_MEMTOT 5

struct virtio_balloon_stat {
    u16 tag;
    u64 val;
} __attribute__((packed));

// The pages that it can give are those behind the stacks.
#define POOL 256

// What the device reads and writes.
static volatile u32 numbers[POOL] __attribute__((aligned(4 * POOL)));
static volatile struct virtio_balloon_stat stats[2] __attribute__((aligned(32)));

static u64 features;

// How many pages the balloon has: the first ones of the pool.
static u32 given;

static int has_stats(void)
{
    return (features & VIRTIO_BALLOON_F_STATS_VQ) != 0;
}

static volatile u64 *page(u32 index)
{
    extern char second_stack_top[];
    u64 pool = ((u64)second_stack_top + PAGE_SIZE - 1) / PAGE_SIZE * PAGE_SIZE;
    return (u64 *)(pool + PAGE_SIZE * (u64)index);
}

// 5.5.6.3
static void tell(void)
{
    stats[0] = (struct virtio_balloon_stat){VIRTIO_BALLOON_S_MEMFREE, (u64)PAGE_SIZE * (POOL - given)};
    stats[1] = (struct virtio_balloon_stat){VIRTIO_BALLOON_S_MEMTOT, (u64)PAGE_SIZE * POOL};
    offer(STATS, stats, sizeof stats, 0);
}

// Lists pages of the pool by their numbers, which count 4,096 bytes (5.5.6), and waits until the device has read them.
static void list(u32 queue, u32 first, u32 count)
{
    for (u32 index = 0; index < count; index++)
        numbers[index] = (u32)((u64)page(first + index) / 4096);
    offer(queue, numbers, 4 * count, 0);
    while (!is_used(queue)) {
    }
}

static u32 count_empty(u32 first, u32 count)
{
    u32 empty = 0;
    for (u32 index = 0; index < count; index++)
        empty += *page(first + index) == 0;
    return empty;
}

static void put_count(const char *what, u32 count, const char *rest)
{
    put_text(what);
    put_number(count);
    put_text(rest);
}

// What stood in the pages is gone.
static void give(u32 count)
{
    for (u32 index = 0; index < count; index++)
        *page(given + index) = 1;
    list(INFLATE, given, count);
    put_count("gave ", count, " pages, and ");
    put_count("", count_empty(given, count), " of them are empty\n");
    given += count;
}

static void take(u32 count)
{
    given -= count;
    list(DEFLATE, given, count);
    put_count("took ", count, " pages\n");
}

static u32 wanted_pages(void)
{
    u32 wanted = read_register(NUM_PAGES);
    return wanted < POOL ? wanted : POOL;
}

// Waits until the balloon is to have more or fewer pages, and tells of the memory meanwhile.
static u32 wait_for_change(void)
{
    u32 wanted;
    while ((wanted = wanted_pages()) == given)
        if (has_stats() && is_used(STATS))
            tell();
    put_count("the balloon is to have ", wanted, " pages\n");
    return wanted;
}

void run(u64 hart)
{
    (void)hart;
    find_device(VIRTIO_ID_BALLOON);
    features = begin(VIRTIO_F_VERSION_1 | VIRTIO_BALLOON_F_STATS_VQ);
    finish_with(has_stats() ? QUEUES : STATS);
    if (has_stats())
        tell();
    do {
        u32 wanted = wait_for_change();
        if (given < wanted)
            give(wanted - given);
        else
            take(given - wanted);
        write_register(ACTUAL, given);
    } while (given != 0);
}
