// A plain interpreter of RV64IMA with Zicsr for one hart, as the replayed monitor's: RAM from 0x80000000 on, the image at
// 0x80200000, the console and the reset by calls of SBI. `interpreter IMAGE` runs it to its reset, prints what the guest
// wrote, and on the second line the instructions and the nanoseconds.
#include <stdint.h>
#include <stdio.h>
#include <stdlib.h>
#include <string.h>
#include <time.h>

#define RAM_START 0x80000000u
#define RAM_SIZE (4u << 20)
#define IMAGE_OFFSET 0x200000u

struct hart {
    uint64_t x[32];
    uint64_t pc;
    uint64_t sie, stvec, sscratch, sepc, scause, stval, sstatus;
    uint64_t held;
    int is_held;
    uint32_t left;
    uint64_t pending;
    int off;
};

static uint8_t *ram;

static int is_ram(uint64_t at, uint64_t len) {
    return at >= RAM_START && at - RAM_START <= RAM_SIZE - len;
}

static void trap(struct hart *h, uint64_t cause, uint64_t value) {
    h->scause = cause;
    h->stval = value;
    h->sepc = h->pc;
    h->sstatus = (h->sstatus & 2) << 4;
    h->pc = h->stvec & ~3ull;
}

// Interrupts are looked for after every 32nd instruction.
static void look(struct hart *h) {
    h->left = 32;
    if ((h->sstatus & 2) && (h->pending & h->sie)) trap(h, 1ull << 63 | 1, 0);
}

static uint64_t *csr(struct hart *h, uint32_t number) {
    switch (number) {
    case 0x100: return &h->sstatus;
    case 0x104: return &h->sie;
    case 0x105: return &h->stvec;
    case 0x140: return &h->sscratch;
    case 0x141: return &h->sepc;
    case 0x142: return &h->scause;
    case 0x143: return &h->stval;
    case 0x144: return &h->pending;
    default: return 0;
    }
}

static void sbi(struct hart *h) {
    if (h->x[17] == 1) {
        putchar((int)(h->x[10] & 0xff));
        h->x[10] = 0;
    } else if (h->x[17] == 0x53525354 && h->x[16] == 0) {
        h->off = 1;
    } else {
        h->x[10] = (uint64_t)-2;
        h->x[11] = 0;
    }
}

static uint64_t mulhu(uint64_t a, uint64_t b) { return (uint64_t)((unsigned __int128)a * b >> 64); }

static uint64_t alu(uint32_t f3, int alternative, uint64_t a, uint64_t b) {
    switch (f3) {
    case 0: return alternative ? a - b : a + b;
    case 1: return a << (b & 63);
    case 2: return (int64_t)a < (int64_t)b;
    case 3: return a < b;
    case 4: return a ^ b;
    case 5: return alternative ? (uint64_t)((int64_t)a >> (b & 63)) : a >> (b & 63);
    case 6: return a | b;
    default: return a & b;
    }
}

static uint64_t alu_word(uint32_t f3, int alternative, uint64_t a, uint64_t b) {
    switch (f3) {
    case 0: return (uint64_t)(int32_t)(alternative ? a - b : a + b);
    case 1: return (uint64_t)(int32_t)((uint32_t)a << (b & 31));
    default:
        return alternative ? (uint64_t)((int32_t)a >> (b & 31)) : (uint64_t)(int32_t)((uint32_t)a >> (b & 31));
    }
}

static uint64_t muldiv(uint32_t f3, uint64_t a, uint64_t b) {
    int64_t s = (int64_t)a, t = (int64_t)b;
    switch (f3) {
    case 0: return a * b;
    case 1: return (uint64_t)((__int128)s * t >> 64);
    case 2: return (uint64_t)((__int128)s * b >> 64);
    case 3: return mulhu(a, b);
    case 4: return b == 0 ? ~0ull : s == INT64_MIN && t == -1 ? a : (uint64_t)(s / t);
    case 5: return b == 0 ? ~0ull : a / b;
    case 6: return b == 0 ? a : s == INT64_MIN && t == -1 ? 0 : (uint64_t)(s % t);
    default: return b == 0 ? a : a % b;
    }
}

static uint64_t muldiv_word(uint32_t f3, uint32_t a, uint32_t b) {
    int32_t s = (int32_t)a, t = (int32_t)b, r;
    switch (f3) {
    case 0: r = (int32_t)(a * b); break;
    case 4: r = b == 0 ? -1 : s == INT32_MIN && t == -1 ? s : s / t; break;
    case 5: r = b == 0 ? -1 : (int32_t)(a / b); break;
    case 6: r = b == 0 ? s : s == INT32_MIN && t == -1 ? 0 : s % t; break;
    default: r = (int32_t)(b == 0 ? a : a % b); break;
    }
    return (uint64_t)(int64_t)r;
}

static uint64_t amo(uint32_t f5, int wide, uint64_t old, uint64_t b) {
    int less = wide ? (int64_t)old < (int64_t)b : (int32_t)old < (int32_t)b;
    int below = wide ? old < b : (uint32_t)old < (uint32_t)b;
    switch (f5) {
    case 0: return old + b;
    case 1: return b;
    case 4: return old ^ b;
    case 8: return old | b;
    case 12: return old & b;
    case 16: return less ? old : b;
    case 20: return less ? b : old;
    case 24: return below ? old : b;
    default: return below ? b : old;
    }
}

static int taken(uint32_t f3, uint64_t a, uint64_t b) {
    switch (f3) {
    case 0: return a == b;
    case 1: return a != b;
    case 4: return (int64_t)a < (int64_t)b;
    case 5: return (int64_t)a >= (int64_t)b;
    case 6: return a < b;
    default: return a >= b;
    }
}

static void atomic(struct hart *h, uint32_t w, uint32_t rd, uint64_t a, uint64_t b) {
    int wide = (w >> 12 & 7) == 3;
    uint64_t len = wide ? 8 : 4, old = 0;
    uint32_t f5 = w >> 27;
    if (a & (len - 1)) { trap(h, f5 == 2 ? 4 : 6, a); return; }
    if (!is_ram(a, len)) { trap(h, f5 == 2 ? 5 : 7, a); return; }
    uint8_t *p = ram + (a - RAM_START);
    memcpy(&old, p, len);
    uint64_t shown = wide ? old : (uint64_t)(int32_t)old;
    if (f5 == 2) {
        h->held = a & ~7ull;
        h->is_held = 1;
    } else if (f5 == 3) {
        int fits = h->is_held && h->held == (a & ~7ull);
        if (fits) memcpy(p, &b, len);
        h->is_held = 0;
        shown = !fits;
    } else {
        uint64_t next = amo(f5, wide, old, b);
        memcpy(p, &next, len);
    }
    if (rd) h->x[rd] = shown;
    h->pc += 4;
}

static void system_word(struct hart *h, uint32_t w, uint32_t rd, uint32_t rs1) {
    uint32_t f3 = w >> 12 & 7;
    if (w == 0x73) { sbi(h); h->pc += 4; return; }
    if (w == 0x00100073) { trap(h, 3, h->pc); return; }
    if (w == 0x10200073) { h->pc = h->sepc; h->sstatus = (h->sstatus >> 4 & 2) | 0x20; return; }
    if (w == 0x10500073) { h->pc += 4; return; }
    uint64_t *c = csr(h, w >> 20);
    if (!c || f3 == 0 || f3 == 4) { trap(h, 2, w); return; }
    uint64_t source = f3 & 4 ? rs1 : h->x[rs1], old = *c;
    if ((f3 & 3) == 1) *c = source;
    else if ((f3 & 3) == 2) *c |= source;
    else *c &= ~source;
    if (rd) h->x[rd] = old;
    h->pc += 4;
}

static void step(struct hart *h) {
    if (!is_ram(h->pc, 4)) { trap(h, 1, h->pc); return; }
    uint32_t w;
    memcpy(&w, ram + (h->pc - RAM_START), 4);
    uint32_t rd = w >> 7 & 31, f3 = w >> 12 & 7, rs1 = w >> 15 & 31, rs2 = w >> 20 & 31;
    uint64_t a = h->x[rs1], b = h->x[rs2], value, at, i = (uint64_t)((int32_t)w >> 20);
    switch (w & 0x7f) {
    case 0x37: value = (uint64_t)(int32_t)(w & 0xfffff000); break;
    case 0x17: value = h->pc + (uint64_t)(int32_t)(w & 0xfffff000); break;
    case 0x6f:
        at = h->pc + ((uint64_t)((int64_t)(int32_t)(w & 0x80000000) >> 11) | (w & 0xff000) | (w >> 9 & 0x800) | (w >> 20 & 0x7fe));
        if (at & 3) { trap(h, 0, at); return; }
        if (rd) h->x[rd] = h->pc + 4;
        h->pc = at;
        return;
    case 0x67:
        if (f3) { trap(h, 2, w); return; }
        at = (a + i) & ~1ull;
        if (at & 3) { trap(h, 0, at); return; }
        if (rd) h->x[rd] = h->pc + 4;
        h->pc = at;
        return;
    case 0x63:
        if (f3 == 2 || f3 == 3) { trap(h, 2, w); return; }
        if (!taken(f3, a, b)) { h->pc += 4; return; }
        at = h->pc + ((uint64_t)((int64_t)(int32_t)(w & 0x80000000) >> 19) | (w << 4 & 0x800) | (w >> 20 & 0x7e0) | (w >> 7 & 0x1e));
        if (at & 3) { trap(h, 0, at); return; }
        h->pc = at;
        return;
    case 0x03: {
        uint64_t len = 1ull << (f3 & 3), read = 0;
        if (f3 == 7) { trap(h, 2, w); return; }
        at = a + i;
        if (at & (len - 1)) { trap(h, 4, at); return; }
        if (!is_ram(at, len)) { trap(h, 5, at); return; }
        uint8_t *p = ram + (at - RAM_START);
        switch (f3) {
        case 0: read = (uint64_t)(int8_t)*p; break;
        case 1: { int16_t v; memcpy(&v, p, 2); read = (uint64_t)v; break; }
        case 2: { int32_t v; memcpy(&v, p, 4); read = (uint64_t)v; break; }
        case 3: memcpy(&read, p, 8); break;
        case 4: read = *p; break;
        case 5: { uint16_t v; memcpy(&v, p, 2); read = v; break; }
        default: { uint32_t v; memcpy(&v, p, 4); read = v; break; }
        }
        value = read;
        break;
    }
    case 0x23: {
        uint64_t len = 1ull << (f3 & 3);
        if (f3 > 3) { trap(h, 2, w); return; }
        at = a + ((i & ~31ull) | rd);
        if (at & (len - 1)) { trap(h, 6, at); return; }
        if (!is_ram(at, len)) { trap(h, 7, at); return; }
        uint8_t *p = ram + (at - RAM_START);
        switch (f3) {
        case 0: *p = (uint8_t)b; break;
        case 1: memcpy(p, &b, 2); break;
        case 2: memcpy(p, &b, 4); break;
        default: memcpy(p, &b, 8); break;
        }
        h->pc += 4;
        return;
    }
    case 0x13: value = alu(f3, f3 == 5 && (w >> 30 & 1), a, i); break;
    case 0x1b: value = alu_word(f3, f3 == 5 && (w >> 30 & 1), a, i); break;
    case 0x33: value = w >> 25 == 1 ? muldiv(f3, a, b) : alu(f3, w >> 30 & 1, a, b); break;
    case 0x3b:
        value = w >> 25 == 1 ? muldiv_word(f3, (uint32_t)a, (uint32_t)b) : alu_word(f3, w >> 30 & 1, a, b);
        break;
    case 0x2f: atomic(h, w, rd, a, b); return;
    case 0x0f: h->pc += 4; return;
    case 0x73: system_word(h, w, rd, rs1); return;
    default: trap(h, 2, w); return;
    }
    if (rd) h->x[rd] = value;
    h->pc += 4;
}

int main(int argc, char **argv) {
    FILE *file = argc == 2 ? fopen(argv[1], "rb") : 0;
    if (!file) return 2;
    ram = calloc(1, RAM_SIZE);
    if (!ram || !fread(ram + IMAGE_OFFSET, 1, RAM_SIZE - IMAGE_OFFSET, file)) return 1;
    fclose(file);
    struct hart h = { .pc = RAM_START + IMAGE_OFFSET, .left = 32 };
    struct timespec from, to;
    clock_gettime(CLOCK_MONOTONIC, &from);
    uint64_t count = 0;
    while (!h.off) {
        step(&h);
        count++;
        if (--h.left == 0) look(&h);
    }
    clock_gettime(CLOCK_MONOTONIC, &to);
    printf("\n%llu %lld\n", (unsigned long long)count,
        (to.tv_sec - from.tv_sec) * 1000000000ll + to.tv_nsec - from.tv_nsec);
    return 0;
}
