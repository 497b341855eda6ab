/* The built-in image, and apart from it the header as the chip would lend it. The paths come from the build. */
        .section .rodata
        .globl  built_in_image, built_in_image_end, approved_header, approved_header_end
built_in_image:
        .incbin IMAGE
built_in_image_end:
approved_header:
        .incbin HEADER
approved_header_end:

        .section .note.GNU-stack, "", @progbits
