/* A bare AArch64 machine, from its first instruction: a stack, zeros where zeros are expected, then main. Words and the exit go by semihosting.
 * Floating-point registers are off, as they come, and each access has to lie at a multiple of its size: the library asks for neither. */
    .section .text.start, "ax"
    .global _start
_start:
    adr x0, vectors
    msr vbar_el1, x0
    mrs x0, sctlr_el1
    orr x0, x0, #2 /* alignment is checked */
    msr sctlr_el1, x0
    msr cpacr_el1, xzr /* floating point traps */
    isb
    ldr x0, =stack_top
    mov sp, x0
    ldr x0, =bss_begins
    ldr x1, =bss_ends
1:  cmp x0, x1
    b.hs 2f
    strb wzr, [x0], #1
    b 1b
2:  bl main

/* exit(status), the status in w0 */
leave:
    sub sp, sp, #16
    mov x2, #0x26
    movk x2, #2, lsl #16 /* the program has ended by itself */
    mov w3, w0
    stp x2, x3, [sp]
    mov x1, sp
    mov w0, #0x18
    hlt #0xf000

/* say(words): up to their zero octet */
    .global say
say:
    mov x1, x0
    mov w0, #4
    hlt #0xf000
    ret

    .balign 2048
vectors:
    .rept 16
    b trapped
    .balign 128
    .endr
trapped:
    adr x0, words
    bl say
    mov w0, #3
    b leave
words:
    .asciz "bare: trapped\n"
