# The start of a program over musl's static C library, in place of its crt1.o.
#
# It calls __libc_start_main with main and a start page of its own: the arguments, the environment, and the auxiliary vector with the size
# of a page alone. The system's own vector says where the program headers are, and in an executable of ppclink those aren't in memory. So
# main gets the one argument "program" and no environment.
    .abiversion 2
    .text

    .globl _start
    .type _start, @function
_start:
0:  addis 2, 12, .TOC.-0b@ha
    addi 2, 2, .TOC.-0b@l
    .localentry _start, .-_start
    addis 3, 2, main_address@toc@ha
    ld 3, main_address@toc@l(3)
    li 4, 1
    addis 5, 2, start_page@toc@ha
    addi 5, 5, start_page@toc@l
    li 6, 0
    li 7, 0
    li 8, 0
    stdu 1, -32(1)
    bl __libc_start_main
    nop
    .size _start, .-_start

    .data
    .p2align 3
main_address:
    .quad main
start_page:
    .quad name, 0
    .quad 0
    .quad 6, 0x1000
    .quad 0, 0
name:
    .asciz "program"

    .section .note.GNU-stack, "", @progbits
