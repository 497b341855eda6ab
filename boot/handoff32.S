/* boot_hand_off(entry) of a load in mode 32: the stub leaves long mode, and then does as ../stub/handoff.S. */
        .bss
        .balign 4
entry:  .skip   4

        .section .rodata
        .balign 8
gdt:    .quad   0, 0x00cf9a000000ffff, 0x00cf92000000ffff
gdt_pointer:
        .short  . - gdt - 1
        .quad   gdt
narrow: .long   narrow_start            # and its selector
        .short  8

        .text
        .globl  boot_hand_off
boot_hand_off:
        mov     %edi, entry
        lgdt    gdt_pointer
        ljmp    *narrow
        .code32
narrow_start:
        mov     $0x10, %eax             # 32-bit code can't do without
        .irp    s, ds, es, fs, gs, ss
        mov     %eax, %\s
        .endr
        mov     %cr0, %eax
        and     $0x7fffffff, %eax       # paging off
        mov     %eax, %cr0
        mov     $0xc0000080, %ecx       # EFER
        rdmsr
        and     $~0x100, %eax           # LME
        wrmsr
        push    $0
        popf                            # from here on nothing changes a flag
        .irp    n, 0, 1, 2, 3, 4, 5, 6, 7
        pxor    %xmm\n, %xmm\n
        .endr
        .irp    r, eax, ebx, ecx, edx, esi, edi, ebp, esp
        mov     $0, %\r
        .endr
        jmp     *entry

        .section .note.GNU-stack, "", @progbits
