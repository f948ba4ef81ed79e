// write files                    makes memory files "base" and "second" of 128 MiB; diffs "d1" to "d5" of version 1 to merge into the first in
//                                turn, and the same of version 2, "e1" to "e5", to merge into the second; and "z1" to "z5", diffs of
//                                version 1 as long as "d1" to "d5" whose pages are zeros
// write new|over NAME PAGES SYNCS  writes so many pages to a new file, by the mebibyte, or over every other page of one, page by
//                                page, with so many syncs, each behind a byte of its own; prints the nanoseconds
#include <fcntl.h>
#include <stdint.h>
#include <stdio.h>
#include <stdlib.h>
#include <string.h>
#include <time.h>
#include <unistd.h>

enum { PAGE = 4096, PAGES = 32768, BLOCK = 256 * PAGE };
static char block[BLOCK];

static void put(int file, const void *bytes, size_t count, off_t at) {
    if (pwrite(file, bytes, count, at) != (ssize_t)count) exit(1);
}

static void number(char *at, uint64_t value, int bytes) {
    for (int i = 0; i < bytes; i++) at[i] = (char)(value >> 8 * i);
}

// gate, magic, version and the number of pages, and identities of lineage 5
static void head(char *at, const char *kind, int version) {
    at[0] = 1;
    memcpy(at + 1, kind, 7);
    number(at + 8, version, 4);
    number(at + 12, PAGES, 4);
}

static int made(const char *name) {
    int file = open(name, O_RDWR | O_CREAT | O_TRUNC, 0666);
    if (file < 0) exit(1);
    return file;
}

static void memory(const char *name) {
    char start[PAGE] = {0};
    head(start, "RVFCMEM", 1);
    number(start + 16, 5, 8);
    number(start + 24, 1, 8);
    int base = made(name);
    put(base, start, PAGE, 0);
    for (int i = 0; i < PAGES / 256; i++) put(base, block, BLOCK, PAGE + (off_t)BLOCK * i);
    if (fsync(base) != 0 || close(base) != 0) exit(1);
}

// every other page, each of these bytes
static void diff(const char *name, int version, int k, int count, const char *page) {
    off_t entry = version == 1 ? 4 : 12, start = 64 + entry * count;
    char *table = malloc(start);
    if (table == NULL) exit(1);
    memset(table, 0, start);
    head(table, "RVFCDIF", version);
    number(table + 16, 5, 8);
    number(table + 24, k, 8);
    number(table + 32, 5, 8);
    number(table + 40, k + 1, 8);
    number(table + 48, count, 4);
    if (version == 2) number(table + 52, count, 4);
    for (int i = 0; i < count; i++) {
        number(table + 64 + entry * i, 2 * i, 4);
        if (version == 2) {
            number(table + 64 + entry * i + 4, 1, 4);
            number(table + 64 + entry * i + 8, 1, 4);
        }
    }
    int file = made(name);
    put(file, table, start, 0);
    for (int i = 0; i < count; i++) put(file, page, PAGE, start + (off_t)PAGE * i);
    if (fsync(file) != 0 || close(file) != 0) exit(1);
    free(table);
}

static void files(void) {
    static char zeros[PAGE];
    memory("base");
    memory("second");
    for (int k = 1, count = 1024; k <= 5; k++, count *= 2) {
        char name[] = {'d', (char)('0' + k), 0};
        diff(name, 1, k, count, block);
        name[0] = 'e';
        diff(name, 2, k, count, block);
        name[0] = 'z';
        diff(name, 1, k, count, zeros);
    }
}

static long long now(void) {
    struct timespec t;
    clock_gettime(CLOCK_MONOTONIC, &t);
    return t.tv_sec * 1000000000LL + t.tv_nsec;
}

int main(int count, char **words) {
    memset(block, 0xa5, BLOCK);
    if (count == 2 && strcmp(words[1], "files") == 0) {
        files();
        return 0;
    }
    if (count != 5) return 2;
    int is_new = strcmp(words[1], "new") == 0, pages = atoi(words[3]), syncs = atoi(words[4]);
    long long from = now();
    int file = is_new ? made(words[2]) : open(words[2], O_RDWR);
    if (file < 0) return 1;
    if (is_new)
        for (int i = 0; i < pages / 256; i++) put(file, block, BLOCK, PAGE + (off_t)BLOCK * i);
    else
        for (int i = 0; i < pages; i++) put(file, block, PAGE, PAGE + 2 * (off_t)PAGE * i);
    for (int i = 0; i < syncs; i++) {
        put(file, block, 1, 64 + 32 * (off_t)i);
        if (fsync(file) != 0) return 1;
    }
    if (close(file) != 0) return 1;
    printf("%lld\n", now() - from);
    return 0;
}
