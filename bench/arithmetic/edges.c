// What the operations of RV64IMA compute at the edges of their operands, by the integers of the host: tables of
// crates/machine_cases/data/instructions, values, branches and stored.
// Usage: edges FAMILY, where FAMILY is one of these.
#include <inttypes.h>
#include <stdbool.h>
#include <stdint.h>
#include <stdio.h>
#include <string.h>

#define COUNT(xs) (sizeof(xs) / sizeof((xs)[0]))

typedef struct {
    uint64_t a;
    uint64_t b;
} Pair;

static const Pair PAIRS[30] = {
    {0, 0},
    {1, 0},
    {-1, 0},
    {INT64_MIN, 0},
    {0, 1},
    {0, -1},
    {1, -1},
    {-1, 1},
    {-1, -1},
    {INT64_MIN, -1},
    {-1, INT64_MIN},
    {INT64_MIN, 1},
    {INT64_MIN, INT64_MIN},
    {INT64_MAX, INT64_MAX},
    {INT64_MAX, INT64_MIN},
    {INT64_MIN, INT64_MAX},
    {INT64_MAX, 1},
    {0x80000000, 0xffffffff},
    {INT32_MIN, -1},
    {INT32_MAX, 1},
    {INT32_MAX, 0x80000000},
    {0x80000000, INT32_MAX},
    {0xffffffff, 0xffffffff},
    {0xffffffff, 0x100000000},
    {0x100000000, 0xffffffff},
    {0x100000000, 0x80000000},
    {-7, 2},
    {7, -2},
    {0x8000000080000001, 33},
    {0xfedcba9876543210, 0x0123456789abcde0},
};

// Signed values.
static int64_t s(uint64_t n) { return (int64_t)n; }
static int32_t sw(uint64_t n) { return (int32_t)(uint32_t)n; }

// A word's sign extended.
static uint64_t word(uint32_t n) { return (uint64_t)(int64_t)(int32_t)n; }

// The base.
static uint64_t add(uint64_t a, uint64_t b) { return a + b; }
static uint64_t sub(uint64_t a, uint64_t b) { return a - b; }
static uint64_t sll(uint64_t a, uint64_t b) { return a << (b & 63); }
static uint64_t slt(uint64_t a, uint64_t b) { return s(a) < s(b); }
static uint64_t sltu(uint64_t a, uint64_t b) { return a < b; }
static uint64_t xor_(uint64_t a, uint64_t b) { return a ^ b; }
static uint64_t srl(uint64_t a, uint64_t b) { return a >> (b & 63); }
static uint64_t sra(uint64_t a, uint64_t b) { return s(a) >> (b & 63); }
static uint64_t or_(uint64_t a, uint64_t b) { return a | b; }
static uint64_t and_(uint64_t a, uint64_t b) { return a & b; }
static uint64_t addw(uint64_t a, uint64_t b) { return word((uint32_t)a + (uint32_t)b); }
static uint64_t subw(uint64_t a, uint64_t b) { return word((uint32_t)a - (uint32_t)b); }
static uint64_t sllw(uint64_t a, uint64_t b) { return word((uint32_t)a << (b & 31)); }
static uint64_t srlw(uint64_t a, uint64_t b) { return word((uint32_t)a >> (b & 31)); }
static uint64_t sraw(uint64_t a, uint64_t b) { return (int64_t)(sw(a) >> (b & 31)); }

// The extension M. Divisions are made at twice the width, where none overflows.
typedef __int128 wide;
typedef unsigned __int128 uwide;

static uint64_t mul(uint64_t a, uint64_t b) { return a * b; }
static uint64_t mulh(uint64_t a, uint64_t b) { return (uint64_t)(((wide)s(a) * (wide)s(b)) >> 64); }
static uint64_t mulhsu(uint64_t a, uint64_t b) { return (uint64_t)(((wide)s(a) * (wide)b) >> 64); }
static uint64_t mulhu(uint64_t a, uint64_t b) { return (uint64_t)(((uwide)a * (uwide)b) >> 64); }
static uint64_t div_(uint64_t a, uint64_t b) { return b == 0 ? UINT64_MAX : (uint64_t)((wide)s(a) / (wide)s(b)); }
static uint64_t divu(uint64_t a, uint64_t b) { return b == 0 ? UINT64_MAX : a / b; }
static uint64_t rem(uint64_t a, uint64_t b) { return b == 0 ? a : (uint64_t)((wide)s(a) % (wide)s(b)); }
static uint64_t remu(uint64_t a, uint64_t b) { return b == 0 ? a : a % b; }
static uint64_t mulw(uint64_t a, uint64_t b) { return word((uint32_t)a * (uint32_t)b); }

static uint64_t divw(uint64_t a, uint64_t b) {
    return sw(b) == 0 ? UINT64_MAX : word((uint32_t)((int64_t)sw(a) / (int64_t)sw(b)));
}

static uint64_t divuw(uint64_t a, uint64_t b) {
    return (uint32_t)b == 0 ? UINT64_MAX : word((uint32_t)a / (uint32_t)b);
}

static uint64_t remw(uint64_t a, uint64_t b) {
    return sw(b) == 0 ? word((uint32_t)a) : word((uint32_t)((int64_t)sw(a) % (int64_t)sw(b)));
}

static uint64_t remuw(uint64_t a, uint64_t b) {
    return (uint32_t)b == 0 ? word((uint32_t)a) : word((uint32_t)a % (uint32_t)b);
}

// The extension A: what is stored, of 32 bits, where a's low half is what was loaded, and of 64.
#define AMO(NAME, STORED)                                                    \
    static uint64_t NAME##_word(uint64_t wide_a, uint64_t wide_b) {          \
        uint32_t a = (uint32_t)wide_a, b = (uint32_t)wide_b;                 \
        int32_t x = (int32_t)a, y = (int32_t)b;                              \
        (void)a, (void)x, (void)y;                                           \
        return (uint32_t)(STORED);                                           \
    }                                                                        \
    static uint64_t NAME##_double(uint64_t a, uint64_t b) {                  \
        int64_t x = (int64_t)a, y = (int64_t)b;                              \
        (void)a, (void)x, (void)y;                                           \
        return STORED;                                                       \
    }

AMO(amoswap, b)
AMO(amoadd, a + b)
AMO(amoxor, a ^ b)
AMO(amoand, a & b)
AMO(amoor, a | b)
AMO(amomin, x < y ? a : b)
AMO(amomax, x > y ? a : b)
AMO(amominu, a < b ? a : b)
AMO(amomaxu, a > b ? a : b)

typedef struct {
    const char *name;
    uint64_t (*of)(uint64_t a, uint64_t b);
} Op;

// An instruction with a result in x1 and operands in x2 and x3.
typedef struct {
    Op op;
    uint32_t word;
} Instruction;

#define OP 0x33
#define OP_32 0x3b
#define R(FUNCT7, FUNCT3, OPCODE) ((uint32_t)(FUNCT7) << 25 | 3 << 20 | 2 << 15 | (FUNCT3) << 12 | 1 << 7 | (OPCODE))

static const Instruction INSTRUCTIONS[] = {
    {{"add", add}, R(0, 0, OP)},          {{"sub", sub}, R(0x20, 0, OP)},       {{"sll", sll}, R(0, 1, OP)},
    {{"slt", slt}, R(0, 2, OP)},          {{"sltu", sltu}, R(0, 3, OP)},        {{"xor", xor_}, R(0, 4, OP)},
    {{"srl", srl}, R(0, 5, OP)},          {{"sra", sra}, R(0x20, 5, OP)},       {{"or", or_}, R(0, 6, OP)},
    {{"and", and_}, R(0, 7, OP)},         {{"addw", addw}, R(0, 0, OP_32)},     {{"subw", subw}, R(0x20, 0, OP_32)},
    {{"sllw", sllw}, R(0, 1, OP_32)},     {{"srlw", srlw}, R(0, 5, OP_32)},     {{"sraw", sraw}, R(0x20, 5, OP_32)},
    {{"mul", mul}, R(1, 0, OP)},          {{"mulh", mulh}, R(1, 1, OP)},        {{"mulhsu", mulhsu}, R(1, 2, OP)},
    {{"mulhu", mulhu}, R(1, 3, OP)},      {{"div", div_}, R(1, 4, OP)},         {{"divu", divu}, R(1, 5, OP)},
    {{"rem", rem}, R(1, 6, OP)},          {{"remu", remu}, R(1, 7, OP)},        {{"mulw", mulw}, R(1, 0, OP_32)},
    {{"divw", divw}, R(1, 4, OP_32)},     {{"divuw", divuw}, R(1, 5, OP_32)},   {{"remw", remw}, R(1, 6, OP_32)},
    {{"remuw", remuw}, R(1, 7, OP_32)},
};

// Whether a branch is taken.
static uint64_t eq(uint64_t a, uint64_t b) { return a == b; }
static uint64_t ne(uint64_t a, uint64_t b) { return a != b; }
static uint64_t ge(uint64_t a, uint64_t b) { return s(a) >= s(b); }
static uint64_t geu(uint64_t a, uint64_t b) { return a >= b; }

// Branches by 8 on x2 and x3.
#define B(FUNCT3) (3 << 20 | 2 << 15 | (FUNCT3) << 12 | 4 << 8 | 0x63)

static const Instruction BRANCHES[] = {
    {{"beq", eq}, B(0)}, {{"bne", ne}, B(1)},    {{"blt", slt}, B(4)},
    {{"bge", ge}, B(5)}, {{"bltu", sltu}, B(6)}, {{"bgeu", geu}, B(7)},
};

// Atomic operations, whose address is in x2 and operand in x3: a is what memory holds, b the operand.
#define A(FUNCT5, FUNCT3) ((uint32_t)(FUNCT5) << 27 | 3 << 20 | 2 << 15 | (FUNCT3) << 12 | 1 << 7 | 0x2f)
#define BOTH(NAME, FUNCT5) {{#NAME ".w", NAME##_word}, A(FUNCT5, 2)}, {{#NAME ".d", NAME##_double}, A(FUNCT5, 3)}

static const Instruction ATOMICS[] = {
    BOTH(amoswap, 0x01), BOTH(amoadd, 0x00), BOTH(amoxor, 0x04),  BOTH(amoand, 0x0c),  BOTH(amoor, 0x08),
    BOTH(amomin, 0x10),  BOTH(amomax, 0x14), BOTH(amominu, 0x18), BOTH(amomaxu, 0x1c),
};

static void print_cases(const Instruction *all, size_t count, bool are_branches) {
    for (size_t k = 0; k < count; k++) {
        printf("# %s\n", all[k].op.name);
        for (size_t i = 0; i < COUNT(PAIRS); i++) {
            uint64_t a = PAIRS[i].a, b = PAIRS[i].b, value = all[k].op.of(a, b);
            printf("%08" PRIx32 " %" PRIx64 " %" PRIx64 " = ", all[k].word, a, b);
            if (are_branches)
                printf("%s\n", value ? "Branch { target: 8 }" : "Nothing");
            else
                printf("%" PRIx64 "\n", value);
        }
    }
}

int main(int argc, char **argv) {
    const char *family = argc == 2 ? argv[1] : "";
    if (strcmp(family, "values") == 0) {
        printf("# What operations compute at the edges of their operands, by the integers of the host: "
               "`bench/arithmetic/run`.\n");
        print_cases(INSTRUCTIONS, COUNT(INSTRUCTIONS), false);
    } else if (strcmp(family, "branches") == 0) {
        printf("# Branches by 8 from 0 at the edges of their operands, by the integers of the host: "
               "`bench/arithmetic/run`.\n");
        print_cases(BRANCHES, COUNT(BRANCHES), true);
    } else if (strcmp(family, "stored") == 0) {
        printf("# What atomic operations store where A is in memory, by the integers of the host: "
               "`bench/arithmetic/run`.\n");
        print_cases(ATOMICS, COUNT(ATOMICS), false);
    } else {
        fprintf(stderr, "usage: edges values|branches|stored\n");
        return 2;
    }
    return 0;
}
