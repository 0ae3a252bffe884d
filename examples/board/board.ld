/* The board's memory: from 2 MiB on, so that the first 2 MiB can be left unmapped. The library's code stands apart, between pager_from
   and pager_to, so that an interrupt can tell whether it came inside a call; memmove and memset follow it. */
ENTRY(entry)
PHDRS { note PT_NOTE FLAGS(4); text PT_LOAD FLAGS(5); data PT_LOAD FLAGS(6); }
SECTIONS
{
    . = 0x200000;
    .note.Xen : { KEEP(*(.note.Xen)) } :text :note
    .pager : ALIGN(16) { pager_from = .; *libcorwystal.a:*(.text .text.*) pager_to = .; *(.text.copies) copies_to = .; } :text
    .text : { *(.text .text.*) } :text
    .rodata : { *(.rodata .rodata.*) } :text
    . = ALIGN(4096);
    .data : { *(.data .data.*) } :data
    .bss : { *(.bss .bss.*) *(COMMON) } :data
    /DISCARD/ : { *(.comment) *(.eh_frame) *(.note.GNU-stack) *(.llvm_addrsig) }
}
