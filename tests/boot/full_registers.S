/*
 * No fault: a stub that hands off with every register full, so that the loaded program sees each one that is not set
 * to zero. Left are the entry's, the stack pointer, and the flags that would stop the processor.
 */
        .text
        .globl  __wrap_boot_hand_off
__wrap_boot_hand_off:
        .irp    n, 0, 1, 2, 3, 4, 5, 6, 7, 8, 9, 10, 11, 12, 13, 14, 15
        pcmpeqd %xmm\n, %xmm\n
        .endr
        .irp    r, rax, rbx, rcx, rdx, rsi, rbp, r8, r9, r10, r11, r12, r13, r14, r15
        mov     $-1, %\r
        .endr
        pushq   $0x247cd5
        popfq
        jmp     __real_boot_hand_off

        .section .note.GNU-stack, "", @progbits
