# The start of a program, and the two system calls that the examples make. No C library is needed beside it.
#
# A program begins at _start with its stack in r1 and its entry in r12 (ELFv2 ABI, "Process Initialization"). What main answers is the
# status of the program.
    .abiversion 2
    .text

    .globl _start
    .type _start, @function
_start:
    # the TOC base, made of the entry's address: all C code wants it in r2
0:  addis 2, 12, .TOC.-0b@ha
    addi 2, 2, .TOC.-0b@l
    .localentry _start, .-_start
    # a frame for main's linkage: its callers' words at 0(r1) to 31(r1)
    stdu 1, -32(1)
    bl main
    nop
    li 0, 1
    sc
    .size _start, .-_start

# long read_some(int descriptor, void *bytes, unsigned long length)
# how many bytes came, 0 at the end of the input, or minus the number of an error
    .globl read_some
    .type read_some, @function
read_some:
    li 0, 3
    sc
    bnslr
    neg 3, 3
    blr
    .size read_some, .-read_some

# long write_some(int descriptor, const void *bytes, unsigned long length)
# how many bytes went, or minus the number of an error
    .globl write_some
    .type write_some, @function
write_some:
    li 0, 4
    sc
    bnslr
    neg 3, 3
    blr
    .size write_some, .-write_some

    .section .note.GNU-stack, "", @progbits
