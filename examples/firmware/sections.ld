/* What goes where; the chip's own script says where flash and ram are. */
ENTRY(vectors)

SECTIONS
{
    .text : {
        KEEP(*(.vectors))
        *(.text .text.*)
        *(.rodata .rodata.* .srodata .srodata.*)
        . = ALIGN(4);
        data_in_flash = .;
    } > flash

    .data : {
        data_start = .;
        *(.data .data.*)
        PROVIDE(__global_pointer$ = . + 0x800);
        *(.sdata .sdata.*)
        . = ALIGN(4);
        data_end = .;
    } > ram AT > flash

    .bss (NOLOAD) : {
        bss_start = .;
        *(.sbss .sbss.* .bss .bss.* COMMON)
        . = ALIGN(4);
        bss_end = .;
    } > ram

    stack_top = ORIGIN(ram) + LENGTH(ram);
    /* so much is left for the stack, or the program does not fit */
    ASSERT(stack_top - bss_end >= 512, "less than 512 bytes of stack")

    /DISCARD/ : { *(.eh_frame .stack_sizes .comment) }
}
