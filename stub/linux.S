/* What makes the example a Linux program: its first instruction, its stack, and system calls. */
        .bss
        .balign 16
stack:  .skip   8192
stack_end:

        .text
        .globl  _start
_start: lea     stack_end(%rip), %rsp
        call    demo                    # does not return
        ud2

/* linux_call(number, a, b, c, d, e) */
        .globl  linux_call
linux_call:
        mov     %rdi, %rax
        mov     %rsi, %rdi
        mov     %rdx, %rsi
        mov     %rcx, %rdx
        mov     %r8, %r10
        mov     %r9, %r8
        syscall
        ret

        .section .note.GNU-stack, "", @progbits
