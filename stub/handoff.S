/* boot_hand_off(entry): section 2.3.1 of the standard. Flags and vector registers are zero as well. */
        .bss
        .balign 8
entry:  .skip 8

        .text
        .globl boot_hand_off
boot_hand_off:
        mov     %rdi, entry(%rip)       # the one place left to jump by when no register holds it
        pushq   $0
        popfq                           # from here on nothing changes a flag
        .irp    n, 0, 1, 2, 3, 4, 5, 6, 7, 8, 9, 10, 11, 12, 13, 14, 15
        pxor    %xmm\n, %xmm\n
        .endr
        .irp    r, eax, ebx, ecx, edx, esi, edi, ebp, esp, r8d, r9d, r10d, r11d, r12d, r13d, r14d, r15d
        mov     $0, %\r                 # and the upper half with it
        .endr
        jmp     *entry(%rip)

        .section .note.GNU-stack, "", @progbits
