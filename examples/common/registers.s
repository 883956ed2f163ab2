# What gcc calls at -Os in place of saving and restoring registers itself (ELFv2 ABI, "Register Save and Restore Functions"). GNU ld makes
# these functions when they are asked for; ppclink makes nothing that isn't in its files, so link this one too.
#
# _savegpr0_N stores rN to r31 below the stack pointer, and the caller's LR, which is in r0. _restgpr0_N loads them and returns for its
# caller. Each entry runs on into the next.
    .abiversion 2
    .text

    .irp n, 14, 15, 16, 17, 18, 19, 20, 21, 22, 23, 24, 25, 26, 27, 28, 29, 30, 31
    .globl _savegpr0_\n
    .type _savegpr0_\n, @function
_savegpr0_\n:
    std \n, 8*(\n-32)(1)
    .endr
    std 0, 16(1)
    blr

    .irp n, 14, 15, 16, 17, 18, 19, 20, 21, 22, 23, 24, 25, 26, 27, 28, 29, 30, 31
    .globl _restgpr0_\n
    .type _restgpr0_\n, @function
_restgpr0_\n:
    ld \n, 8*(\n-32)(1)
    .endr
    ld 0, 16(1)
    mtlr 0
    blr

    .section .note.GNU-stack, "", @progbits
