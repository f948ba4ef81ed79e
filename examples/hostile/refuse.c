/* Loaded before the C library: the allocation whose number REFUSE has is refused, from 1. How many there were stands in the file of eight bytes that COUNT names. */
#define _GNU_SOURCE
#include <dlfcn.h>
#include <errno.h>
#include <fcntl.h>
#include <stdatomic.h>
#include <stdlib.h>
#include <sys/mman.h>

static atomic_long none, *asked = &none;
static long refused;
static void *(*real_malloc)(size_t), *(*real_calloc)(size_t, size_t), *(*real_realloc)(void *, size_t);
static void *(*real_aligned)(size_t, size_t);
static int (*real_memalign)(void **, size_t, size_t);

__attribute__((constructor)) static void begin(void)
{
    const char *number = getenv("REFUSE");
    real_malloc = dlsym(RTLD_NEXT, "malloc");
    real_calloc = dlsym(RTLD_NEXT, "calloc");
    real_realloc = dlsym(RTLD_NEXT, "realloc");
    real_aligned = dlsym(RTLD_NEXT, "aligned_alloc");
    real_memalign = dlsym(RTLD_NEXT, "posix_memalign");
    refused = number ? atol(number) : 0;
    const char *name = getenv("COUNT");
    int file = name ? open(name, O_RDWR) : -1;
    void *at = file < 0 ? MAP_FAILED : mmap(NULL, sizeof *asked, PROT_READ | PROT_WRITE, MAP_SHARED, file, 0);
    if (at != MAP_FAILED)
        asked = at;
}

/* Whether this one is refused. */
static int refuses(void)
{
    if (atomic_fetch_add(asked, 1) + 1 != refused)
        return 0;
    errno = ENOMEM;
    return 1;
}

void *malloc(size_t size)
{
    if (!real_malloc)
        real_malloc = dlsym(RTLD_NEXT, "malloc");
    return refuses() ? NULL : real_malloc(size);
}

void *calloc(size_t count, size_t size)
{
    if (!real_calloc)
        real_calloc = dlsym(RTLD_NEXT, "calloc");
    return refuses() ? NULL : real_calloc(count, size);
}

void *realloc(void *at, size_t size)
{
    if (!real_realloc)
        real_realloc = dlsym(RTLD_NEXT, "realloc");
    return refuses() ? NULL : real_realloc(at, size);
}

void *aligned_alloc(size_t align, size_t size)
{
    return refuses() ? NULL : real_aligned(align, size);
}

int posix_memalign(void **at, size_t align, size_t size)
{
    return refuses() ? ENOMEM : real_memalign(at, align, size);
}
