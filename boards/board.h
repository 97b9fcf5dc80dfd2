/*
 * An emulated board: what a program may ask of it beside the C library. Standard input and output are those of the
 * emulator (semihosting).
 */
#ifndef BOARD_H
#define BOARD_H

#include <stddef.h>
#include <stdint.h>

/* The deepest that the stack ever was, in bytes, of the memory that the program left for it. */
size_t board_deepest_stack(void);

/* The first byte of the stack's memory, and the one after its last. */
extern uint8_t board_bss_end[], board_stack_end[];

/* Ends the program with a status. */
_Noreturn void board_exit(int status);

#endif
