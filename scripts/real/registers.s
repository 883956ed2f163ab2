# The functions that compilers call at -Os to save and restore registers (ELFv2 ABI, "Register Save and Restore Functions"): each entry
# stores, or loads, its register and all above it; the saved r0 is the caller's LR.
    .text
    .abiversion 2
    .globl _savegpr0_14
    .type _savegpr0_14, @function
_savegpr0_14:
    std 14, -144(1)
    .globl _savegpr0_15
    .type _savegpr0_15, @function
_savegpr0_15:
    std 15, -136(1)
    .globl _savegpr0_16
    .type _savegpr0_16, @function
_savegpr0_16:
    std 16, -128(1)
    .globl _savegpr0_17
    .type _savegpr0_17, @function
_savegpr0_17:
    std 17, -120(1)
    .globl _savegpr0_18
    .type _savegpr0_18, @function
_savegpr0_18:
    std 18, -112(1)
    .globl _savegpr0_19
    .type _savegpr0_19, @function
_savegpr0_19:
    std 19, -104(1)
    .globl _savegpr0_20
    .type _savegpr0_20, @function
_savegpr0_20:
    std 20, -96(1)
    .globl _savegpr0_21
    .type _savegpr0_21, @function
_savegpr0_21:
    std 21, -88(1)
    .globl _savegpr0_22
    .type _savegpr0_22, @function
_savegpr0_22:
    std 22, -80(1)
    .globl _savegpr0_23
    .type _savegpr0_23, @function
_savegpr0_23:
    std 23, -72(1)
    .globl _savegpr0_24
    .type _savegpr0_24, @function
_savegpr0_24:
    std 24, -64(1)
    .globl _savegpr0_25
    .type _savegpr0_25, @function
_savegpr0_25:
    std 25, -56(1)
    .globl _savegpr0_26
    .type _savegpr0_26, @function
_savegpr0_26:
    std 26, -48(1)
    .globl _savegpr0_27
    .type _savegpr0_27, @function
_savegpr0_27:
    std 27, -40(1)
    .globl _savegpr0_28
    .type _savegpr0_28, @function
_savegpr0_28:
    std 28, -32(1)
    .globl _savegpr0_29
    .type _savegpr0_29, @function
_savegpr0_29:
    std 29, -24(1)
    .globl _savegpr0_30
    .type _savegpr0_30, @function
_savegpr0_30:
    std 30, -16(1)
    .globl _savegpr0_31
    .type _savegpr0_31, @function
_savegpr0_31:
    std 31, -8(1)
    std 0, 16(1)
    blr
    .globl _restgpr0_14
    .type _restgpr0_14, @function
_restgpr0_14:
    ld 14, -144(1)
    .globl _restgpr0_15
    .type _restgpr0_15, @function
_restgpr0_15:
    ld 15, -136(1)
    .globl _restgpr0_16
    .type _restgpr0_16, @function
_restgpr0_16:
    ld 16, -128(1)
    .globl _restgpr0_17
    .type _restgpr0_17, @function
_restgpr0_17:
    ld 17, -120(1)
    .globl _restgpr0_18
    .type _restgpr0_18, @function
_restgpr0_18:
    ld 18, -112(1)
    .globl _restgpr0_19
    .type _restgpr0_19, @function
_restgpr0_19:
    ld 19, -104(1)
    .globl _restgpr0_20
    .type _restgpr0_20, @function
_restgpr0_20:
    ld 20, -96(1)
    .globl _restgpr0_21
    .type _restgpr0_21, @function
_restgpr0_21:
    ld 21, -88(1)
    .globl _restgpr0_22
    .type _restgpr0_22, @function
_restgpr0_22:
    ld 22, -80(1)
    .globl _restgpr0_23
    .type _restgpr0_23, @function
_restgpr0_23:
    ld 23, -72(1)
    .globl _restgpr0_24
    .type _restgpr0_24, @function
_restgpr0_24:
    ld 24, -64(1)
    .globl _restgpr0_25
    .type _restgpr0_25, @function
_restgpr0_25:
    ld 25, -56(1)
    .globl _restgpr0_26
    .type _restgpr0_26, @function
_restgpr0_26:
    ld 26, -48(1)
    .globl _restgpr0_27
    .type _restgpr0_27, @function
_restgpr0_27:
    ld 27, -40(1)
    .globl _restgpr0_28
    .type _restgpr0_28, @function
_restgpr0_28:
    ld 28, -32(1)
    .globl _restgpr0_29
    .type _restgpr0_29, @function
_restgpr0_29:
    ld 29, -24(1)
    .globl _restgpr0_30
    .type _restgpr0_30, @function
_restgpr0_30:
    ld 30, -16(1)
    .globl _restgpr0_31
    .type _restgpr0_31, @function
_restgpr0_31:
    ld 31, -8(1)
    ld 0, 16(1)
    mtlr 0
    blr
