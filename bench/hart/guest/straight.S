# Straight runs of LUI and ADDI: 1,000 pairs a round.
    .section .text.start, "ax"
    .globl start
    .option norvc
start:
    j begin
    .word 0
rounds:
    .dword 1
begin:
    la t0, rounds
    ld t0, 0(t0)
1:  .rept 500
    lui a0, 0x12345
    addi a0, a0, 0x678
    lui a1, 0x54321
    addi a2, a1, -5
    .endr
    addi t0, t0, -1
    beqz t0, 2f
    j 1b
2:  li a7, 1
    li a0, 'A'
    ecall
    li a7, 0x53525354
    li a6, 0
    li a0, 0
    li a1, 0
    ecall
3:  j 3b
