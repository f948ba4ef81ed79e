// Calls of the supervisor binary interface, and text on the console.
#include "guest.h"

struct sbi_return sbi_call(u64 extension, u64 function, u64 first, u64 second, u64 third)
{
    register u64 a0 __asm__("a0") = first;
    register u64 a1 __asm__("a1") = second;
    register u64 a2 __asm__("a2") = third;
    register u64 a6 __asm__("a6") = function;
    register u64 a7 __asm__("a7") = extension;
    __asm__ volatile("ecall" : "+r"(a0), "+r"(a1) : "r"(a2), "r"(a6), "r"(a7) : "memory");
    return (struct sbi_return){(long)a0, (long)a1};
}

// The legacy call, which ends once the byte is stored.
void put_char(char c)
{
    sbi_call(1, 0, (unsigned char)c, 0, 0);
}

void put_text(const char *text)
{
    for (; *text; text++)
        put_char(*text);
}

static void put_digits(u64 number, u64 base)
{
    char digits[20];
    int count = 0;
    do {
        digits[count++] = "0123456789abcdef"[number % base];
        number /= base;
    } while (number != 0);
    while (count > 0)
        put_char(digits[--count]);
}

void put_number(u64 number)
{
    put_digits(number, 10);
}

void put_hex(u64 number)
{
    put_text("0x");
    put_digits(number, 16);
}

void shut_down(void)
{
    sbi_call(SBI_SRST, 0, 0, 0, 0);
    for (;;) {
    }
}

void stop_hart(void)
{
    sbi_call(SBI_HSM, 1, 0, 0, 0);
    for (;;) {
    }
}

long start_second(u64 hart)
{
    extern char second_start[], second_stack_top[];
    return sbi_call(SBI_HSM, 0, hart, (u64)second_start, (u64)second_stack_top).error;
}
