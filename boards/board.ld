/*
 * Where a program lies on an emulated board: code and constants in flash, variables at the start of the memory and the
 * stack at its end. boards/link names the addresses and sizes of each board, and a program that does not fit is not linked.
 */
MEMORY
{
    FLASH (rx) : ORIGIN = FLASH_START, LENGTH = FLASH_BYTES
    RAM (rwx) : ORIGIN = RAM_START, LENGTH = RAM_BYTES
}

ENTRY(board_entry)

SECTIONS
{
    .text : {
        KEEP(*(.entry))
        *(.text .text.*)
        *(.rodata .rodata.* .srodata .srodata.*)
        . = ALIGN(8);
    } >FLASH

    /* The stack grows down from the end of the memory. STACK_BYTES of it are kept free of variables. */
    .data : {
        board_data_start = .;
        *(.data .data.* .sdata .sdata.*)
        . = ALIGN(8);
        board_data_end = .;
    } >RAM AT >FLASH
    board_data_kept = LOADADDR(.data);

    .bss (NOLOAD) : {
        board_bss_start = .;
        *(.bss .bss.* .sbss .sbss.* COMMON)
        . = ALIGN(8);
        board_bss_end = .;
    } >RAM

    board_stack_end = ORIGIN(RAM) + LENGTH(RAM);
    ASSERT(board_bss_end + STACK_BYTES <= board_stack_end, "the variables leave too little memory for the stack")

    /DISCARD/ : { *(.ARM.exidx* .ARM.extab* .eh_frame* .comment .note*) }
}
