// What every guest here uses: calls of the supervisor binary interface (RISC-V SBI 1.0), and text on the console.
#ifndef GUEST_H
#define GUEST_H

typedef unsigned char u8;
typedef unsigned short u16;
typedef unsigned int u32;
typedef unsigned long u64;

struct sbi_return {
    long error;
    long value;
};

#define SBI_BASE 0x10
#define SBI_TIME 0x54494D45
#define SBI_IPI 0x735049
#define SBI_HSM 0x48534D
#define SBI_SRST 0x53525354

struct sbi_return sbi_call(u64 extension, u64 function, u64 a0, u64 a1, u64 a2);

void put_char(char c);
void put_text(const char *text);
void put_number(u64 number);
void put_hex(u64 number);

// Turns the machine off.
void shut_down(void) __attribute__((noreturn));

// The hart that calls stops.
void stop_hart(void) __attribute__((noreturn));

// Starts another hart, which runs run_second.
long start_second(u64 hart);

// What a guest does: on hart 0, or whichever the firmware starts first, and on the other.
void run(u64 hart);
void run_second(u64 hart);

#define csr_read(csr) ({ u64 value; __asm__ volatile("csrr %0, " #csr : "=r"(value)::"memory"); value; })
#define csr_write(csr, value) __asm__ volatile("csrw " #csr ", %0" ::"r"((u64)(value)) : "memory")
#define csr_set(csr, mask) __asm__ volatile("csrs " #csr ", %0" ::"r"((u64)(mask)) : "memory")
#define csr_clear(csr, mask) __asm__ volatile("csrc " #csr ", %0" ::"r"((u64)(mask)) : "memory")

#define SOFTWARE_INTERRUPT (1UL << 1)
#define TIMER_INTERRUPT (1UL << 5)
#define STATUS_SIE (1UL << 1)

#endif
