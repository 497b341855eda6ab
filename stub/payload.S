/* The program inside the sample image. It looks at the state that it was entered with, and says what it saw. */
#include "unit.h"
#include "registers.inc"
        .text
        unless_zero registers

        cmpl    $MARK, HIGH_BASE
        jne     memory
        cmpb    $0, HIGH_BASE + HIGH_LENGTH - FILL_COUNT - 1
        jne     memory
        cmpb    $FILL_PATTERN, HIGH_BASE + HIGH_LENGTH - FILL_COUNT
        jne     memory
        cmpb    $FILL_PATTERN, HIGH_BASE + HIGH_LENGTH - 1
        jne     memory
        mov     $STATUS_ENTERED, %edi
        jmp     end
registers:
        mov     $STATUS_REGISTERS, %edi
        jmp     end
memory: mov     $STATUS_MEMORY, %edi
end:    mov     $60, %eax               # exit
        syscall

        .section .note.GNU-stack, "", @progbits
