# Where the guest begins. The word at offset 8 is how many rounds it makes; `run` puts another there.
    .section .text.start, "ax"
    .globl start
    .option norvc
start:
    j begin
    .word 0
    .globl rounds
rounds:
    .dword 1
begin:
    la sp, start              # the stack grows down from the image
    la t0, zeros_begin
    la t1, zeros_end
1:  bgeu t0, t1, 2f
    sd zero, 0(t0)
    addi t0, t0, 8
    j 1b
2:  call main
    li a7, 0x53525354         # system reset: shutdown
    li a6, 0
    li a0, 0
    li a1, 0
    ecall
3:  j 3b
