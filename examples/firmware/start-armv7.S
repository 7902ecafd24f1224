/* Where the processor begins: a stack, zeros where nothing is initialized, and main. */
    .syntax unified
    .arm
    .section .text.start, "ax"
    .global _start
_start:
    ldr sp, =stack_end
    ldr r0, =zeros_start
    ldr r1, =zeros_end
    mov r2, #0
1:  cmp r0, r1
    bhs 2f
    str r2, [r0], #4
    b 1b
2:  bl board_main
3:  b 3b
    .ltorg

    .section .text.semihosting, "ax"
    .global semihosting
semihosting:
    svc #0x123456
    bx lr

/* The quotient in r0 and r1, the rest in r2 and r3. */
    .section .text.__aeabi_uldivmod, "ax"
    .global __aeabi_uldivmod
__aeabi_uldivmod:
    push {r4, lr}
    sub sp, sp, #16
    add r4, sp, #8
    str r4, [sp]
    bl divide
    ldr r2, [sp, #8]
    ldr r3, [sp, #12]
    add sp, sp, #16
    pop {r4, pc}
