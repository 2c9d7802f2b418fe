// Vectors, the start, and the call on the card's own stack.
    .syntax unified
    .cpu cortex-m0plus
    .thumb

    .section .vectors, "a"
    .word line_stack_top
    .word start
    .rept 14
    .word fault
    .endr

    .section .text.start, "ax"
    .global start
    .thumb_func
start:
    bl  line_card

    .section .text.fault, "ax"
    .global fault
    .thumb_func
fault:
    ldr r0, =line_stack_top     // the card's stack may be what ran over
    mov sp, r0
    bl  line_fault
    .pool

// on_card_stack(function, top): runs the function with the stack pointer at `top`.
    .section .text.on_card_stack, "ax"
    .global on_card_stack
    .thumb_func
on_card_stack:
    push {r4, lr}
    mov r4, sp
    mov sp, r1
    blx r0
    mov sp, r4
    pop {r4, pc}
