/*
 * The start of a program on an emulated board, and its standard streams. A board of one's own has its own start; this one
 * copies the variables, paints the stack so that its depth can be told, and calls main with the emulator's arguments.
 * Whatever the processor calls a fault ends the program with status 3. Compiled with -DBOARD_TELLS_STACK the program tells
 * at its end on standard error how deep its stack was.
 */
#include "board.h"

#include <stdio.h>
#include <string.h>

extern uint8_t board_data_start[], board_data_end[], board_data_kept[], board_bss_start[];
int main(int count, char **arguments);

enum {
    PAINT = 0xA5,
    STATUS_FAULT = 3,
    /* The operations of semihosting, the same for Arm and RISC-V. */
    OPEN = 0x01,
    WRITE = 0x05,
    READ = 0x06,
    COMMAND_LINE = 0x15,
    EXIT = 0x20,
    EXIT_REASON = 0x20026,
    MODE_READ = 0,
    MODE_WRITE = 4,
    MODE_APPEND = 8,
    MOST_ARGUMENTS = 8
};

/* ---- The emulator ---- */

static uintptr_t ask(uintptr_t operation, const void *block)
{
#ifdef __riscv
    register uintptr_t first __asm__("a0") = operation;
    register const void *second __asm__("a1") = block;
    __asm__ volatile(".option push\n.option norvc\n.balign 16\nslli x0, x0, 0x1f\nebreak\nsrai x0, x0, 7\n.option pop"
                     : "+r"(first)
                     : "r"(second)
                     : "memory");
#else
    register uintptr_t first __asm__("r0") = operation;
    register const void *second __asm__("r1") = block;
    __asm__ volatile("bkpt 0xAB" : "+r"(first) : "r"(second) : "memory");
#endif
    return first;
}

_Noreturn void board_exit(int status)
{
    uintptr_t block[] = { EXIT_REASON, (uintptr_t)status };

    for (;;)
        ask(EXIT, block);
}

/* The console; the mode says which of the three streams it is. */
static uintptr_t open_console(uintptr_t mode)
{
    static const char name[] = ":tt";
    uintptr_t block[] = { (uintptr_t)name, mode, sizeof name - 1 };

    return ask(OPEN, block);
}

/* ---- Standard streams, by pieces, since each call of the emulator costs much ---- */

enum { PIECE = 64 };

struct stream {
    uintptr_t handle;
    uint8_t is_open;
    uint8_t taken;
    uint8_t length;
    uint8_t piece[PIECE];
};

static struct stream input, output, errors;

static void write_out(struct stream *stream, uintptr_t mode)
{
    if (!stream->is_open)
        stream->handle = open_console(mode);
    stream->is_open = 1;
    uintptr_t block[] = { stream->handle, (uintptr_t)stream->piece, stream->length };
    if (stream->length > 0)
        ask(WRITE, block);
    stream->length = 0;
}

static int put(struct stream *stream, uintptr_t mode, char character)
{
    stream->piece[stream->length++] = (uint8_t)character;
    if (stream->length == PIECE)
        write_out(stream, mode);
    return (unsigned char)character;
}

static int put_output(char character, FILE *file)
{
    (void)file;
    return put(&output, MODE_WRITE, character);
}

static int put_error(char character, FILE *file)
{
    (void)file;
    return put(&errors, MODE_APPEND, character);
}

static int get_input(FILE *file)
{
    (void)file;
    if (input.taken == input.length) {
        if (!input.is_open)
            input.handle = open_console(MODE_READ);
        input.is_open = 1;
        uintptr_t block[] = { input.handle, (uintptr_t)input.piece, PIECE };
        uintptr_t left = ask(READ, block);
        input.taken = 0;
        input.length = left > PIECE ? 0 : (uint8_t)(PIECE - left);
        if (input.length == 0)
            return _FDEV_EOF;
    }
    return input.piece[input.taken++];
}

static FILE input_file = FDEV_SETUP_STREAM(NULL, get_input, NULL, _FDEV_SETUP_READ);
static FILE output_file = FDEV_SETUP_STREAM(put_output, NULL, NULL, _FDEV_SETUP_WRITE);
static FILE error_file = FDEV_SETUP_STREAM(put_error, NULL, NULL, _FDEV_SETUP_WRITE);

FILE *const stdin = &input_file;
FILE *const stdout = &output_file;
FILE *const stderr = &error_file;

/* Not by printf, which would itself be deep. */
static void tell_stack(void)
{
#ifdef BOARD_TELLS_STACK
    char digits[12];
    size_t place = sizeof digits;
    size_t left = board_deepest_stack();

    digits[--place] = '\n';
    for (; left > 0; left /= 10)
        digits[--place] = (char)('0' + left % 10);
    for (; place < sizeof digits; place++)
        put(&errors, MODE_APPEND, digits[place]);
#endif
}

_Noreturn void _exit(int status)
{
    tell_stack();
    write_out(&output, MODE_WRITE);
    write_out(&errors, MODE_APPEND);
    board_exit(status);
}

_Noreturn void exit(int status)
{
    _exit(status);
}

/* ---- The start ---- */

static void paint_stack(void)
{
    uint8_t *here = __builtin_frame_address(0);

    /* What this function itself uses lies just below its frame address. */
    for (volatile uint8_t *place = board_bss_end; place < here - 128; place++)
        *place = PAINT;
}

size_t board_deepest_stack(void)
{
    const uint8_t *place = board_bss_end;

    while (place < board_stack_end && *place == PAINT)
        place++;
    return (size_t)(board_stack_end - place);
}

/* The words of the emulator's command line. */
static int take_arguments(char *line, char **arguments)
{
    int count = 0;

    while (*line != '\0' && count < MOST_ARGUMENTS) {
        arguments[count++] = line;
        while (*line != '\0' && *line != ' ')
            line++;
        if (*line == ' ')
            *line++ = '\0';
    }
    return count;
}

/*
 * A Cortex-M0 takes an access that is not aligned for a fault, and larger processors do not. Code for a Cortex-M0 that runs
 * on one of them here asks for the same (the bit UNALIGN_TRP of the register CCR).
 */
static void fault_where_a_small_one_would(void)
{
#ifdef __ARM_ARCH_6M__
    volatile uint32_t *configuration = (volatile uint32_t *)0xE000ED14;

    *configuration |= 1u << 3;
#endif
}

void board_start(void)
{
    static char line[80];
    static char *arguments[MOST_ARGUMENTS + 1];
    uintptr_t block[] = { (uintptr_t)line, sizeof line };

    memcpy(board_data_start, board_data_kept, (size_t)(board_data_end - board_data_start));
    memset(board_bss_start, 0, (size_t)(board_bss_end - board_bss_start));
    paint_stack();
    fault_where_a_small_one_would();
    if (ask(COMMAND_LINE, block) != 0)
        line[0] = '\0';
    _exit(main(take_arguments(line, arguments), arguments));
}

void board_fault(void)
{
    static const char told[] = "board: the processor reports a fault\n";

    for (const char *place = told; *place != '\0'; place++)
        put(&errors, MODE_APPEND, *place);
    _exit(STATUS_FAULT);
}

#ifdef __riscv
__asm__(".section .entry, \"ax\"\n"
        ".option arch, +zicsr\n"
        ".globl board_entry\n"
        "board_entry:\n"
        "    la sp, board_stack_end\n"
        "    la t0, board_fault\n"
        "    csrw mtvec, t0\n"
        "    j board_start\n"
        ".text\n");
#else
/* The first words of flash: where the stack begins, the start, and twice seven places for what goes wrong. */
__attribute__((section(".entry"), used)) static void (*const vectors[16])(void) = {
    (void (*)(void))board_stack_end, board_start, board_fault, board_fault, board_fault, board_fault, board_fault,
    board_fault, board_fault, board_fault, board_fault, board_fault, board_fault, board_fault, board_fault, board_fault
};
__asm__(".globl board_entry\n.thumb_set board_entry, board_start\n");
#endif
