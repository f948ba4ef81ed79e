# Instructions that trap, and a way to come back from them. They stand at the same addresses whatever the compiler
# makes of the rest, since addresses go into stval and sepc.

    .section .text.attempts, "ax"
    .option norelax
    .balign 256

    .macro attempt name, code:vararg
    .globl \name
    .balign 8
\name:
    \code
    ret
    .endm

    attempt zero_word, .word 0
    attempt unknown_csr, csrr a0, 0x7c0
    attempt write_time, csrw time, zero
    attempt machine_return, mret
    attempt break_point, ebreak
    attempt jump, jr a0
    attempt load_half, lh a0, 0(a0)
    attempt load_word, lw a0, 0(a0)
    attempt load_double, ld a0, 0(a0)
    attempt store_half, sh zero, 0(a0)
    attempt store_word, sw zero, 0(a0)
    attempt store_double, sd zero, 0(a0)
    attempt reserve_word, lr.w a0, (a0)
    attempt reserve_double, lr.d a0, (a0)
    attempt conditional_word, sc.w a0, zero, (a0)
    attempt conditional_double, sc.d a0, zero, (a0)
    attempt add_word, amoadd.w a0, zero, (a0)
    attempt add_double, amoadd.d a0, zero, (a0)

# Its upper half is a return where the extension C is there, so a jump between two instructions is harmless on such a
# hart. Here it traps at the jump.
    .globl between
    .balign 8
between:
    .half 0x0013, 0x8082

# trapped(code, argument): calls code(argument). 1 where that trapped, and then trap_cause, trap_value and trap_pc say
# how; else 0, and trap_value is what was returned.
    .globl trapped
trapped:
    addi    sp, sp, -16
    sd      ra, 0(sp)
    sd      s0, 8(sp)
    la      t0, trap_entry
    csrw    stvec, t0
    mv      s0, sp
    mv      t0, a0
    mv      a0, a1
    jalr    t0
    la      t0, trap_value
    sd      a0, 0(t0)
    li      a0, 0
    j       leave

# A trap ends here: the attempts change neither s0 nor memory, so the frame is found again.
    .balign 4
trap_entry:
    csrr    t0, scause
    la      t1, trap_cause
    sd      t0, 0(t1)
    csrr    t0, stval
    la      t1, trap_value
    sd      t0, 0(t1)
    csrr    t0, sepc
    la      t1, trap_pc
    sd      t0, 0(t1)
    la      t0, caught
    csrw    sepc, t0
    sret
caught:
    mv      sp, s0
    li      a0, 1
leave:
    ld      ra, 0(sp)
    ld      s0, 8(sp)
    addi    sp, sp, 16
    ret

    .globl trap_cause, trap_value, trap_pc
    .bss
    .balign 8
trap_cause:
    .space 8
trap_value:
    .space 8
trap_pc:
    .space 8
