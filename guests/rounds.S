# How much a guest is to do: a doubleword at offset 8 of its image, where another number can be put.
#ifndef ROUNDS
#define ROUNDS 1
#endif

    .section .text.first, "ax"
    j       _start
    .balign 8
    .globl rounds
rounds:
    .dword  ROUNDS

# What is written lies on no page with code: a machine that translates code would look at it anew with each write.
    .bss
    .balign 4096
