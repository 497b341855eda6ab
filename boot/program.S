/*
 * The program inside the sample image. It looks at the state that it was entered with and at the memory that its
 * commands made, says what it saw, and ends the emulator. boot/sample gives MODE, the addresses and the text.
 */
#include "layout.h"
#include "status.h"
#include "registers.inc"

#if MODE == 32
#define SP %esp
#define SI %esi
#define DI %edi
        .code32
#else
#define SP %rsp
#define SI %rsi
#define DI %rdi
#endif

#define SERIAL 0x3f8
#define LINE_STATUS (SERIAL + 5)
#define OTHER_FLAGS 0x3f7700 /* all but those that arithmetic has changed by now */
#define AT(label) (PROGRAM + label - program)

        .text
program:
        unless_zero registers
        mov     $PROGRAM, SP            # the page below is RAM too
        pushf
        testl   $OTHER_FLAGS, (SP)
        jnz     registers
#if MODE == 32
        mov     %cr0, %eax              # without paging there is no window
        test    %eax, %eax
        js      window
#else
        .irp    s, ds, es, fs, gs, ss
        mov     %\s, %eax
        test    %eax, %eax
        jnz     registers
        .endr
        mov     %cr3, %rax
        cmpq    $0, WINDOW_SLOT * 8(%rax)
        jne     window
#endif
        mov     $AT(text), SI           # what was written
        mov     $TEXT_AT, DI
        mov     $(text_end - text), %ecx
        repe    cmpsb
        jne     memory
        mov     $(FILL_AT - 1), DI      # what was filled, and not a byte more
        cmpb    $0, (DI)
        jne     memory
        inc     DI
        mov     $FILL_PATTERN, %eax
        mov     $FILL_COUNT, %ecx
        repe    scasb
        jne     memory
        cmpb    $0, (DI)
        jne     memory
        mov     $END_ENTERED, %ebx
        mov     $AT(in_order), SI
        jmp     end
registers:
        mov     $END_REGISTERS, %ebx
        mov     $AT(not_zero), SI
        jmp     end
window: mov     $END_WINDOW, %ebx
        mov     $AT(still_there), SI
        jmp     end
memory: mov     $END_MEMORY, %ebx
        mov     $AT(elsewhere), SI

end:    cld                             # its flag may be what was wrong
        mov     $LINE_STATUS, %edx
        in      %dx, %al
        test    $0x20, %al
        jz      end
        mov     $SERIAL, %edx
        lodsb
        out     %al, %dx
        cmpb    $0, (SI)
        jne     end
        mov     %ebx, %eax
        out     %al, $EXIT_PORT
1:      hlt
        jmp     1b

text:   .ascii  TEXT
text_end:
in_order:
        .asciz  "loaded program: all registers zero; the second region's bytes and the fill at their addresses\n"
not_zero:
        .asciz  "loaded program: a register was not zero\n"
still_there:
        .asciz  "loaded program: the window is still there\n"
elsewhere:
        .asciz  "loaded program: its bytes are not at their addresses\n"

        .section .note.GNU-stack, "", @progbits
