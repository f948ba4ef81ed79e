// A guest of up to four harts: each computes a CRC-32 and sorts, as many rounds as its share of all is, and adds what
// came of it to a sum, which the first hart prints when all are done.
typedef unsigned char u8;
typedef unsigned int u32;
typedef unsigned long u64;

extern volatile u64 rounds, harts;

#define MOST 4
#define TEXT 8192
#define WORDS 2000

static struct room {
    u8 text[TEXT];
    u32 table[256];
    u32 words[WORDS];
} rooms[MOST];

static u64 sum;
static volatile u64 ended;

static void make_table(struct room *room) {
    for (u32 i = 0; i < 256; i++) {
        u32 c = i;
        for (int k = 0; k < 8; k++) c = c & 1 ? c >> 1 ^ 0xedb88320 : c >> 1;
        room->table[i] = c;
    }
}

static u32 crc(struct room *room, u64 round) {
    for (u32 i = 0; i < TEXT; i++) room->text[i] = (u8)(i * 7 + round);
    u32 c = 0xffffffff;
    for (u32 i = 0; i < TEXT; i++) c = room->table[(c ^ room->text[i]) & 0xff] ^ c >> 8;
    return ~c;
}

static u64 sort(u32 *words, u64 round) {
    u64 seed = round + 88172645463325252;
    for (u32 i = 0; i < WORDS; i++) {
        seed ^= seed << 13;
        seed ^= seed >> 7;
        seed ^= seed << 17;
        words[i] = (u32)seed;
    }
    for (u32 gap = WORDS / 2; gap > 0; gap /= 2) {
        for (u32 i = gap; i < WORDS; i++) {
            u32 word = words[i], k = i;
            for (; k >= gap && words[k - gap] > word; k -= gap) words[k] = words[k - gap];
            words[k] = word;
        }
    }
    u64 sum = 0;
    for (u32 i = 0; i < WORDS; i++) sum = sum * 31 + words[i];
    return sum;
}

void work(u64 hart) {
    struct room *room = &rooms[hart];
    make_table(room);
    for (u64 round = rounds * hart / harts; round < rounds * (hart + 1) / harts; round++)
        __atomic_fetch_add(&sum, crc(room, round) + sort(room->words, round), __ATOMIC_SEQ_CST);
    __atomic_fetch_add(&ended, 1, __ATOMIC_SEQ_CST);
}

static void putchar_legacy(u8 byte) {
    register u64 a0 __asm__("a0") = byte;
    register u64 a7 __asm__("a7") = 1;
    __asm__ volatile("ecall" : "+r"(a0) : "r"(a7) : "a1", "memory");
}

void finish(void) {
    while (ended < harts) {}
    for (int k = 60; k >= 0; k -= 4) putchar_legacy("0123456789abcdef"[sum >> k & 15]);
}
