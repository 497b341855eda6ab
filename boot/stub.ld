/* One ELF64 at 1 MiB, where every loader finds RAM. The headers come first: GRUB looks for its own near the start. */
ENTRY(start)
PHDRS
{
    code PT_LOAD FLAGS(5);
    data PT_LOAD FLAGS(6);
    note PT_NOTE FLAGS(4);
}
SECTIONS
{
    . = 0x100000;
    stub_begin = .;
    .multiboot2 : { KEEP(*(.multiboot2)) } :code
    .note.pvh : { KEEP(*(.note.pvh)) } :code :note
    .text : { *(.text .text.*) } :code
    .rodata : { *(.rodata .rodata.*) } :code
    . = ALIGN(0x1000);
    .data : { *(.data .data.*) } :data
    .bss : { *(.bss .bss.* COMMON) } :data
    . = ALIGN(0x1000);
    stub_end = .;
    /DISCARD/ : { *(.comment .eh_frame .note.GNU-stack .note.gnu.property) }
}
