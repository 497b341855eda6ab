/* From the boot loader's 32-bit protected mode to boot() in long mode. */
#include "layout.h"

#define MULTIBOOT2 0xe85250d6
#define PVH_ENTRY 18

/* For GRUB. There is no header of the first multiboot: the emulator would try it first, and refuse the ELF64. */
        .section .multiboot2, "a"
        .balign 8
multiboot2:
        .long   MULTIBOOT2, 0, multiboot2_end - multiboot2, -(MULTIBOOT2 + multiboot2_end - multiboot2)
        .short  0, 0                    # the last tag
        .long   8
multiboot2_end:

/* For the emulator's -kernel. */
        .section .note.pvh, "a", @note
        .balign 4
        .long   4, 8, PVH_ENTRY
        .asciz  "Xen"
        .quad   pvh_start

        .text
        .code32
        .globl  start
pvh_start:
        xor     %eax, %eax              # no multiboot2 magic
start:  cli
        cld
        lidt    no_handlers             # the boot loader's are not for long mode
        mov     %eax, %esi              # kept for boot(): the magic, and where the loader's information is
        mov     %ebx, %ebp

        mov     $identity, %edi         # 2 MiB an entry
        mov     $(PRESENT | WRITABLE | LARGE), %eax
        xor     %edx, %edx
1:      mov     %eax, (%edi)
        mov     %edx, 4(%edi)
        add     $LARGE_PAGE, %eax
        adc     $0, %edx
        add     $8, %edi
        cmp     $identity_end, %edi
        jb      1b

        mov     $pointers, %edi         # 1 GiB an entry
        mov     $(identity + (PRESENT | WRITABLE)), %eax
2:      mov     %eax, (%edi)
        add     $8, %edi
        add     $PAGE, %eax
        cmp     $identity_end, %eax
        jb      2b
        movl    $(pointers + (PRESENT | WRITABLE)), top_table

        mov     $top_table, %eax
        mov     %eax, %cr3
        mov     %cr4, %eax
        or      $0x620, %eax            # PAE; OSFXSR and OSXMMEXCPT for SSE
        mov     %eax, %cr4
        mov     $0xc0000080, %ecx       # EFER
        rdmsr
        or      $0x100, %eax            # LME
        wrmsr
        mov     %cr0, %eax
        and     $~0xc, %eax             # EM and TS clear, for SSE
        or      $0x80000002, %eax       # PG and MP
        mov     %eax, %cr0
        lgdt    gdt_pointer
        ljmp    $8, $long_start

        .code64
long_start:
        xor     %eax, %eax              # selectors that long mode does not use: zero as the hand-off wants them
        .irp    s, ds, es, fs, gs, ss
        mov     %eax, %\s
        .endr
        mov     $stack_end, %esp
        mov     %esi, %edi              # and the upper halves, which the switch leaves undefined
        mov     %ebp, %esi
        xor     %ebp, %ebp
        call    boot                    # does not return
        ud2

        .section .rodata
        .balign 8
gdt:    .quad   0, 0x00af9a000000ffff   # code of long mode
gdt_pointer:
        .short  . - gdt - 1
        .long   gdt
no_handlers:
        .short  0
        .long   0

        .bss
        .balign PAGE
        .globl  top_table
top_table:
        .skip   PAGE
pointers:
        .skip   PAGE
identity:
        .skip   IDENTITY_LIMIT / LARGE_PAGE * 8
identity_end:
        .globl  stack, stack_end
stack:  .skip   STACK_BYTES
stack_end:

        .section .note.GNU-stack, "", @progbits
