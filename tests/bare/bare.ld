/* Memory of qemu's machine `virt`. */
ENTRY(_start)
SECTIONS
{
    . = 0x40080000;
    .text : { KEEP(*(.text.start)) *(.text .text.*) }
    .rodata : { *(.rodata .rodata.*) }
    .data : { *(.data .data.*) }
    .bss : { . = ALIGN(16); bss_begins = .; *(.bss .bss.*) *(COMMON) bss_ends = .; }
    . = ALIGN(16) + 16384;
    stack_top = .;
    /DISCARD/ : { *(.comment) *(.note.*) *(.eh_frame) }
}
