# Where each hart begins, with its number in a0. The word at offset 8 is how many rounds there are, of all harts together,
# and the one at offset 16 how many harts; `run` puts others there. Hart 0 starts the others.
    .section .text.start, "ax"
    .globl start
    .option norvc
start:
    j begin
    .word 0
    .globl rounds
rounds:
    .dword 1
    .globl harts
harts:
    .dword 1
begin:
    la t0, zeros_begin
    la t1, zeros_end
1:  bgeu t0, t1, start_others
    sd zero, 0(t0)
    addi t0, t0, 8
    j 1b
start_others:
    li s0, 1                  # a hart to start: 1, 2 and so on
2:  ld t0, harts
    bgeu s0, t0, 3f
    li a7, 0x48534d           # hart state management: start a hart, at this address
    li a6, 0
    mv a0, s0
    la a1, each
    li a2, 0
    ecall
    addi s0, s0, 1
    j 2b
3:  li a0, 0
each:
    la sp, start              # each hart's stack grows down to that of the next one
    slli t0, a0, 14
    sub sp, sp, t0
    mv s0, a0
    call work
    bnez s0, 4f
    call finish
    li a7, 0x53525354         # system reset: shutdown
    li a6, 0
    li a0, 0
    li a1, 0
    ecall
4:  li a7, 0x48534d           # hart state management: stop
    li a6, 1
    ecall
5:  j 5b
