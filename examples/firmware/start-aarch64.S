/* Where the processor begins: a stack, zeros where nothing is initialized, and main. No register but the general ones is used, and nothing is
 * asked of the memory's management, so that it runs as the reset leaves the processor. */
    .section .text.start, "ax"
    .global _start
_start:
    adrp x0, stack_end
    add x0, x0, :lo12:stack_end
    mov sp, x0
    adrp x0, zeros_start
    add x0, x0, :lo12:zeros_start
    adrp x1, zeros_end
    add x1, x1, :lo12:zeros_end
1:  cmp x0, x1
    b.hs 2f
    str xzr, [x0], #8
    b 1b
2:  bl board_main
3:  b 3b

    .section .text.semihosting, "ax"
    .global semihosting
semihosting:
    hlt #0xF000
    ret
