// A plain decoder of the same instructions, and the same loop round it.
#include <stdbool.h>
#include <stdint.h>
#include <stdio.h>
#include <time.h>

#include "mix.h"

#define ROUNDS 5000

enum kind {
    ILLEGAL, LUI, AUIPC, JAL, JALR, BRANCH, LOAD, STORE, ALU_IMM, ALU, MULDIV, LOAD_RESERVED, STORE_CONDITIONAL, AMO,
    FENCE, FENCE_I, ECALL, EBREAK, SRET, WFI, SFENCE_VMA, CSR, CSR_IMM
};
enum test { EQ, NE, LT, GE, LTU, GEU };
enum load { LB, LH, LW, LD, LBU, LHU, LWU };
enum alu { ADD, SUB, SLL, SLT, SLTU, XOR, SRL, SRA, OR, AND, ADDW, SUBW, SLLW, SRLW, SRAW };
enum muldiv { MUL, MULH, MULHSU, MULHU, DIV, DIVU, REM, REMU, MULW, DIVW, DIVUW, REMW, REMUW };
enum amo { A_SWAP, A_ADD, A_XOR, A_AND, A_OR, A_MIN, A_MAX, A_MINU, A_MAXU };
enum csr { C_WRITE, C_SET, C_CLEAR };

// What is left of a field that the kind doesn't have is not set.
struct instr {
    uint8_t kind, op, width, rd, rs1, rs2;
    uint16_t csr;
    uint64_t value;
};

static uint32_t bits(uint32_t w, int high, int low) { return w << (31 - high) >> (31 - high + low); }
static uint64_t extended(uint32_t n, int width) { return (uint64_t)((int64_t)((uint64_t)n << (64 - width)) >> (64 - width)); }
static uint64_t imm_i(uint32_t w) { return extended(bits(w, 31, 20), 12); }
static uint64_t imm_s(uint32_t w) { return extended(bits(w, 31, 25) << 5 | bits(w, 11, 7), 12); }
static uint64_t imm_b(uint32_t w)
{
    return extended(bits(w, 31, 31) << 12 | bits(w, 7, 7) << 11 | bits(w, 30, 25) << 5 | bits(w, 11, 8) << 1, 13);
}
static uint64_t imm_u(uint32_t w) { return extended(w & 0xfffff000, 32); }
static uint64_t imm_j(uint32_t w)
{
    return extended(bits(w, 31, 31) << 20 | bits(w, 19, 12) << 12 | bits(w, 20, 20) << 11 | bits(w, 30, 21) << 1, 21);
}

static struct instr illegal(void) { return (struct instr){ .kind = ILLEGAL }; }
static struct instr plain(int kind) { return (struct instr){ .kind = kind }; }
static struct instr u_type(int kind, uint32_t w, uint64_t value)
{
    return (struct instr){ .kind = kind, .rd = bits(w, 11, 7), .value = value };
}
static struct instr i_type(int kind, int op, uint32_t w, uint64_t value)
{
    return (struct instr){ .kind = kind, .op = op, .rd = bits(w, 11, 7), .rs1 = bits(w, 19, 15), .value = value };
}
static struct instr s_type(int kind, int op, uint32_t w, uint64_t value)
{
    return (struct instr){ .kind = kind, .op = op, .rs1 = bits(w, 19, 15), .rs2 = bits(w, 24, 20), .value = value };
}
static struct instr r_type(int kind, int op, int width, uint32_t w)
{
    return (struct instr){ .kind = kind, .op = op, .width = width, .rd = bits(w, 11, 7), .rs1 = bits(w, 19, 15),
        .rs2 = bits(w, 24, 20) };
}

static struct instr op_imm(uint32_t w)
{
    switch (bits(w, 14, 12)) {
    case 0: return i_type(ALU_IMM, ADD, w, imm_i(w));
    case 1: return bits(w, 31, 26) == 0 ? i_type(ALU_IMM, SLL, w, bits(w, 25, 20)) : illegal();
    case 2: return i_type(ALU_IMM, SLT, w, imm_i(w));
    case 3: return i_type(ALU_IMM, SLTU, w, imm_i(w));
    case 4: return i_type(ALU_IMM, XOR, w, imm_i(w));
    case 5:
        switch (bits(w, 31, 26)) {
        case 0: return i_type(ALU_IMM, SRL, w, bits(w, 25, 20));
        case 0x10: return i_type(ALU_IMM, SRA, w, bits(w, 25, 20));
        default: return illegal();
        }
    case 6: return i_type(ALU_IMM, OR, w, imm_i(w));
    default: return i_type(ALU_IMM, AND, w, imm_i(w));
    }
}

static struct instr op_imm_32(uint32_t w)
{
    switch (bits(w, 14, 12)) {
    case 0: return i_type(ALU_IMM, ADDW, w, imm_i(w));
    case 1: return bits(w, 31, 25) == 0 ? i_type(ALU_IMM, SLLW, w, bits(w, 24, 20)) : illegal();
    case 5:
        switch (bits(w, 31, 25)) {
        case 0: return i_type(ALU_IMM, SRLW, w, bits(w, 24, 20));
        case 0x20: return i_type(ALU_IMM, SRAW, w, bits(w, 24, 20));
        default: return illegal();
        }
    default: return illegal();
    }
}

static struct instr op(uint32_t w)
{
    switch (bits(w, 31, 25) << 3 | bits(w, 14, 12)) {
    case 0: return r_type(ALU, ADD, 0, w);
    case 1: return r_type(ALU, SLL, 0, w);
    case 2: return r_type(ALU, SLT, 0, w);
    case 3: return r_type(ALU, SLTU, 0, w);
    case 4: return r_type(ALU, XOR, 0, w);
    case 5: return r_type(ALU, SRL, 0, w);
    case 6: return r_type(ALU, OR, 0, w);
    case 7: return r_type(ALU, AND, 0, w);
    case 0x100: return r_type(ALU, SUB, 0, w);
    case 0x105: return r_type(ALU, SRA, 0, w);
    case 8: return r_type(MULDIV, MUL, 0, w);
    case 9: return r_type(MULDIV, MULH, 0, w);
    case 10: return r_type(MULDIV, MULHSU, 0, w);
    case 11: return r_type(MULDIV, MULHU, 0, w);
    case 12: return r_type(MULDIV, DIV, 0, w);
    case 13: return r_type(MULDIV, DIVU, 0, w);
    case 14: return r_type(MULDIV, REM, 0, w);
    case 15: return r_type(MULDIV, REMU, 0, w);
    default: return illegal();
    }
}

static struct instr op_32(uint32_t w)
{
    switch (bits(w, 31, 25) << 3 | bits(w, 14, 12)) {
    case 0: return r_type(ALU, ADDW, 0, w);
    case 1: return r_type(ALU, SLLW, 0, w);
    case 5: return r_type(ALU, SRLW, 0, w);
    case 0x100: return r_type(ALU, SUBW, 0, w);
    case 0x105: return r_type(ALU, SRAW, 0, w);
    case 8: return r_type(MULDIV, MULW, 0, w);
    case 12: return r_type(MULDIV, DIVW, 0, w);
    case 13: return r_type(MULDIV, DIVUW, 0, w);
    case 14: return r_type(MULDIV, REMW, 0, w);
    case 15: return r_type(MULDIV, REMUW, 0, w);
    default: return illegal();
    }
}

static struct instr branch(uint32_t w)
{
    switch (bits(w, 14, 12)) {
    case 0: return s_type(BRANCH, EQ, w, imm_b(w));
    case 1: return s_type(BRANCH, NE, w, imm_b(w));
    case 4: return s_type(BRANCH, LT, w, imm_b(w));
    case 5: return s_type(BRANCH, GE, w, imm_b(w));
    case 6: return s_type(BRANCH, LTU, w, imm_b(w));
    case 7: return s_type(BRANCH, GEU, w, imm_b(w));
    default: return illegal();
    }
}

static struct instr amo(uint32_t w)
{
    if (bits(w, 14, 12) != 2 && bits(w, 14, 12) != 3)
        return illegal();
    int width = bits(w, 14, 12) - 2;
    switch (bits(w, 31, 27)) {
    case 0: return r_type(AMO, A_ADD, width, w);
    case 1: return r_type(AMO, A_SWAP, width, w);
    case 2: return bits(w, 24, 20) == 0 ? r_type(LOAD_RESERVED, 0, width, w) : illegal();
    case 3: return r_type(STORE_CONDITIONAL, 0, width, w);
    case 4: return r_type(AMO, A_XOR, width, w);
    case 8: return r_type(AMO, A_OR, width, w);
    case 12: return r_type(AMO, A_AND, width, w);
    case 16: return r_type(AMO, A_MIN, width, w);
    case 20: return r_type(AMO, A_MAX, width, w);
    case 24: return r_type(AMO, A_MINU, width, w);
    case 28: return r_type(AMO, A_MAXU, width, w);
    default: return illegal();
    }
}

static struct instr csr(int kind, int op, uint32_t w)
{
    return (struct instr){ .kind = kind, .op = op, .rd = bits(w, 11, 7), .rs1 = bits(w, 19, 15), .csr = bits(w, 31, 20),
        .value = bits(w, 19, 15) };
}

static struct instr system_group(uint32_t w)
{
    switch (bits(w, 14, 12)) {
    case 0:
        switch (w) {
        case 0x00000073: return plain(ECALL);
        case 0x00100073: return plain(EBREAK);
        case 0x10200073: return plain(SRET);
        case 0x10500073: return plain(WFI);
        default: return (w & 0xfe007fff) == 0x12000073 ? plain(SFENCE_VMA) : illegal();
        }
    case 1: return csr(CSR, C_WRITE, w);
    case 2: return csr(CSR, C_SET, w);
    case 3: return csr(CSR, C_CLEAR, w);
    case 5: return csr(CSR_IMM, C_WRITE, w);
    case 6: return csr(CSR_IMM, C_SET, w);
    case 7: return csr(CSR_IMM, C_CLEAR, w);
    default: return illegal();
    }
}

__attribute__((noinline)) static struct instr decode(uint32_t w)
{
    switch (bits(w, 6, 0)) {
    case 0x03: return bits(w, 14, 12) < 7 ? i_type(LOAD, bits(w, 14, 12), w, imm_i(w)) : illegal();
    case 0x0f:
        switch (bits(w, 14, 12)) {
        case 0: return plain(FENCE);
        case 1: return plain(FENCE_I);
        default: return illegal();
        }
    case 0x13: return op_imm(w);
    case 0x17: return u_type(AUIPC, w, imm_u(w));
    case 0x1b: return op_imm_32(w);
    case 0x23: return bits(w, 14, 12) < 4 ? s_type(STORE, bits(w, 14, 12), w, imm_s(w)) : illegal();
    case 0x2f: return amo(w);
    case 0x33: return op(w);
    case 0x37: return u_type(LUI, w, imm_u(w));
    case 0x3b: return op_32(w);
    case 0x63: return branch(w);
    case 0x67: return bits(w, 14, 12) == 0 ? i_type(JALR, 0, w, imm_i(w)) : illegal();
    case 0x6f: return u_type(JAL, w, imm_j(w));
    case 0x73: return system_group(w);
    default: return illegal();
    }
}

__attribute__((noinline)) static void decode_all(const uint32_t *words, struct instr *slots)
{
    for (int i = 0; i < 64; i++)
        slots[i] = decode(words[i]);
}

static uint64_t with(uint64_t sum, uint64_t part) { return (sum ^ part) * 0x100000001b3; }

static uint64_t with_instr(uint64_t sum, struct instr i)
{
    sum = with(sum, i.kind);
    switch (i.kind) {
    case LUI: case AUIPC: case JAL: return with(with(sum, i.rd), i.value);
    case JALR: return with(with(with(sum, i.rd), i.rs1), i.value);
    case BRANCH: case STORE: return with(with(with(with(sum, i.op), i.rs1), i.rs2), i.value);
    case LOAD: case ALU_IMM: return with(with(with(with(sum, i.op), i.rd), i.rs1), i.value);
    case ALU: case MULDIV: return with(with(with(with(sum, i.op), i.rd), i.rs1), i.rs2);
    case LOAD_RESERVED: return with(with(with(sum, i.rd), i.rs1), i.width);
    case STORE_CONDITIONAL: return with(with(with(with(sum, i.width), i.rd), i.rs1), i.rs2);
    case AMO: return with(with(with(with(with(sum, i.op), i.width), i.rd), i.rs1), i.rs2);
    case CSR: return with(with(with(with(sum, i.op), i.rd), i.rs1), i.csr);
    case CSR_IMM: return with(with(with(with(sum, i.op), i.rd), i.csr), i.value);
    default: return sum;
    }
}

static uint64_t nanoseconds(void)
{
    struct timespec t;
    clock_gettime(CLOCK_MONOTONIC, &t);
    return (uint64_t)t.tv_sec * 1000000000 + t.tv_nsec;
}

int main(void)
{
    static struct instr slots[64];
    uint64_t start = nanoseconds();
    for (int round = 0; round < ROUNDS; round++)
        for (int i = 0; i < MIX_LENGTH; i += 64)
            decode_all(mix + i, slots);
    uint64_t time = nanoseconds() - start;
    uint64_t sum = 0;
    for (int i = 0; i < MIX_LENGTH; i += 64) {
        decode_all(mix + i, slots);
        uint64_t piece = 0;
        for (int k = 0; k < 64; k++)
            piece = with_instr(piece, slots[k]);
        sum = with(sum, piece);
    }
    printf("%llu %llu\n", (unsigned long long)time, (unsigned long long)sum);
    return 0;
}
