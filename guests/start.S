# Where a hart begins: a0 is its number, and a1 is the address of the device tree, or of what another hart gave it.

    .section .text.start, "ax"
    .globl _start
_start:
    la      sp, first_stack_top
    la      t0, bss_start
    la      t1, bss_end
clear:
    bgeu    t0, t1, cleared
    sd      zero, 0(t0)
    addi    t0, t0, 8
    j       clear
cleared:
    call    run
    call    shut_down

# A hart that another one starts: its word is the end of its stack.
    .globl second_start
second_start:
    mv      sp, a1
    call    run_second
    j       stop_hart

# Two stacks, which need no clearing.
    .section .noinit, "aw", @nobits
    .balign 16
    .space  4096
first_stack_top:
    .space  4096
    .globl second_stack_top
second_stack_top:

# Guests of one hart start no other.
    .text
    .weak run_second
run_second:
    ret
