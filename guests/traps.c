// A tour of the exceptions that a supervisor without paging can meet: each one's cause, stval and sepc.
#include "guest.h"

typedef void code(void);

code zero_word, unknown_csr, write_time, machine_return, break_point, jump, load_half, load_word, load_double, store_half,
    store_word, store_double, reserve_word, reserve_double, conditional_word, conditional_double, add_word, add_double,
    between;

int trapped(code *attempt, u64 argument);
extern u64 trap_cause, trap_value, trap_pc;

// An address in RAM behind the image, and one where there is nothing.
#define MEMORY 0x80300000
#define NOWHERE 0x9000000

struct stop {
    const char *name;
    code *attempt;
    u64 argument;
};

static const struct stop tour[] = {
    {"a word of zeros", zero_word, 0},
    {"a CSR that isn't there", unknown_csr, 0},
    {"a write of time", write_time, 0},
    {"mret", machine_return, 0},
    {"ebreak", break_point, 0},
    {"a jump between two words", jump, (u64)between + 2},
    {"lh", load_half, MEMORY + 1},
    {"lw", load_word, MEMORY + 2},
    {"ld", load_double, MEMORY + 4},
    {"sh", store_half, MEMORY + 1},
    {"sw", store_word, MEMORY + 2},
    {"sd", store_double, MEMORY + 4},
    {"lr.w", reserve_word, MEMORY + 2},
    {"lr.d", reserve_double, MEMORY + 4},
    {"sc.w", conditional_word, MEMORY + 2},
    {"sc.d", conditional_double, MEMORY + 4},
    {"amoadd.w", add_word, MEMORY + 2},
    {"amoadd.d", add_double, MEMORY + 4},
    {"a fetch from nowhere", jump, NOWHERE},
    {"lw from nowhere", load_word, NOWHERE},
    {"sd to nowhere", store_double, NOWHERE},
    {"lr.w of nowhere", reserve_word, NOWHERE},
    {"amoadd.d of nowhere", add_double, NOWHERE},
    {"sc.w to nowhere", conditional_word, NOWHERE},
    {"an aligned ld", load_double, MEMORY + 8},
};

void run(u64 hart)
{
    (void)hart;
    for (u64 i = 0; i < sizeof tour / sizeof tour[0]; i++) {
        const struct stop *it = &tour[i];
        put_text(it->name);
        if (trapped(it->attempt, it->argument)) {
            put_text(": cause ");
            put_number(trap_cause);
            put_text(", stval ");
            put_hex(trap_value);
            put_text(", sepc ");
            put_hex(trap_pc);
        } else {
            put_text(": no trap, a0 ");
            put_hex(trap_value);
        }
        put_char('\n');
    }
}
