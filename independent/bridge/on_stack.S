/* uint64_t on_stack(void *argument, uint64_t (*function)(void *), void *top): what function(argument) answers, called with
   the stack pointer at top. */
    .text
    .globl on_stack
    .type on_stack, %function
#if defined(__x86_64__)
on_stack:
    push %rbx
    mov %rsp, %rbx
    mov %rdx, %rsp
    call *%rsi
    mov %rbx, %rsp
    pop %rbx
    ret
#elif defined(__aarch64__)
on_stack:
    stp x29, x30, [sp, #-16]!
    mov x29, sp
    mov sp, x2
    blr x1
    mov sp, x29
    ldp x29, x30, [sp], #16
    ret
#elif defined(__arm__)
    .syntax unified
    .arm
on_stack:
    push {r4, lr}
    mov r4, sp
    mov sp, r2
    blx r1
    mov sp, r4
    pop {r4, pc}
#elif defined(__riscv)
on_stack:
    addi sp, sp, -16
    sd ra, 8(sp)
    sd s0, 0(sp)
    mv s0, sp
    mv sp, a2
    jalr a1
    mv sp, s0
    ld s0, 0(sp)
    ld ra, 8(sp)
    addi sp, sp, 16
    ret
#endif
    .section .note.GNU-stack, "", %progbits
