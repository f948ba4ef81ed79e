# A firmware for QEMU's machine `virt` that hands every exception but the guest's calls to the guest. It knows putchar,
# version 1.0 and shutdown, for the guests of one hart.

    .section .text
    .globl _start
_start:
    la      t0, call
    csrw    mtvec, t0
    li      t0, 0xb1ff
    csrw    medeleg, t0
    li      t0, -1
    csrw    pmpaddr0, t0
    csrw    mcounteren, t0
    li      t0, 0x1f
    csrw    pmpcfg0, t0
    li      t0, 0x1800
    csrc    mstatus, t0
    li      t0, 0x800
    csrs    mstatus, t0
    li      t0, 0x80200000
    csrw    mepc, t0
    csrr    a0, mhartid
    mret

    .balign 4
call:
    csrw    mscratch, t0
    csrr    t0, mepc
    addi    t0, t0, 4
    csrw    mepc, t0
    li      t0, 1
    beq     a7, t0, putchar
    li      t0, 0x10
    beq     a7, t0, version
    li      t0, 0x53525354
    bne     a7, t0, unknown
    li      a0, 0x100000
    li      t0, 0x5555
    sw      t0, 0(a0)
unknown:
    li      a0, -2
    li      a1, 0
    j       back
version:
    li      a0, 0
    li      a1, 0x1000000
    j       back
putchar:
    li      t0, 0x10000000
    sb      a0, 0(t0)
    li      a0, 0
back:
    csrr    t0, mscratch
    mret
