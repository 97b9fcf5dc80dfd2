/*
 * Drawn inputs for the library on a board: drawn CALLS SEED makes so many calls of the exports with the inputs of the
 * fuzzing, accepted ones as well as refused ones, and holds them to what the header says as the fuzzing does. After each
 * thousand calls it prints two digests of what was seen: of all that went in, and of every field of every answer with all
 * lent memory. The same program with the shipped library must print the same (tools/test-board). At the end stands the
 * fuzzing's table, and on standard error a line for each export with the deepest stack of its calls.
 *
 * drawn CALLS SEED FROM TO also tells each call from the one to the other by itself, to find the first that differs.
 *
 * The run fails where too little was tried: where an export was never accepted or never gave a refusal that the header
 * names for it, or where a row was never longer than 65,535, so that a length cut to 16 bits would not be noticed.
 */
#include <stdio.h>
#include <stdlib.h>

#include "fuzz.h"
#include "watched.h"

enum { CALLS_A_LINE = 1000, MOST_WATCHED = 128, MOST_ROWS = 64 };

/* ---- What is seen ---- */

/* Two numbers of 32 bits, since a small processor multiplies no larger ones. */
struct digest {
    uint32_t first;
    uint32_t second;
};

static struct digest of_inputs, of_answers;
static struct digest *seen;
static int current;
static size_t deepest[MOST_WATCHED];
static size_t longest[MOST_ROWS];
static unsigned long told_from, told_to;

static void see_word(uint32_t word)
{
    seen->first = (seen->first ^ word) * 0x01000193u;
    seen->first ^= seen->first >> 15;
    seen->second = (seen->second + word) * 0x9E3779B1u;
    seen->second ^= seen->second >> 13;
}

void see(uint64_t number)
{
    see_word((uint32_t)number);
    see_word((uint32_t)(number >> 32));
}

void see_row(const void *bytes, size_t length)
{
    const uint8_t *place = bytes;
    size_t left = length;

    for (; left >= 4; left -= 4, place += 4)
        see_word(place[0] | (uint32_t)place[1] << 8 | (uint32_t)place[2] << 16 | (uint32_t)place[3] << 24);
    for (; left > 0; left--)
        see_word(*place++);
    see(length);
}

void see_lent(int row, const void *bytes, size_t length, size_t cell)
{
    if (length > longest[row])
        longest[row] = length;
    see_row(bytes, length * cell);
}

void watch_inputs(int export)
{
    current = export;
    seen = &of_inputs;
    see((uint64_t)export);
}

void watch_answer(size_t stack)
{
    if (stack > deepest[current])
        deepest[current] = stack;
    seen = &of_answers;
}

static void tell_digests(unsigned long number, const char *name)
{
    printf("%lu %s inputs %08lX%08lX answers %08lX%08lX\n", number, name, (unsigned long)of_inputs.first,
        (unsigned long)of_inputs.second, (unsigned long)of_answers.first, (unsigned long)of_answers.second);
}

void watch_ends(void)
{
    unsigned long number = (unsigned long)calls_made;

    if (number >= told_from && number <= told_to)
        tell_digests(number, watched_names[current]);
    else if (number % CALLS_A_LINE == 0)
        tell_digests(number, "calls:");
}

/* ---- The run ---- */

_Noreturn void fail(const char *what)
{
    fprintf(stderr, "drawn: call %lu, %s in the turn of %s: %s\n", (unsigned long)calls_made, called_name(), turn_name(),
        what);
    exit(1);
}

/* The memory of a board, with something on both sides of each part that is not lent. */
static void lend_memories(void)
{
    enum { MARGIN = 1024, WHOLE = MARGIN + MEMORY_BYTES + MARGIN };
    static uint32_t lent[MEMORY_COUNT][WHOLE / 4];
    static uint32_t before[MEMORY_COUNT][MEMORY_BYTES / 4];

    for (int place = 0; place < MEMORY_COUNT; place++) {
        memories[place]->writable = (uint8_t *)lent[place] + MARGIN;
        memories[place]->read_only = memories[place]->writable;
        memories[place]->before = (uint8_t *)before[place];
        fill_memory(memories[place]);
    }
}

static bool tell_rows(void)
{
    bool enough = true;

    for (int row = 0; row < row_count; row++) {
        if (longest[row] >= OVER_16_BITS)
            continue;
        printf("never longer than 65,535: %s\n", row_names[row]);
        enough = false;
    }
    return enough;
}

static void tell_stacks(void)
{
    for (int export = 0; export < watched_count; export++)
        fprintf(stderr, "%s %lu\n", watched_names[export], (unsigned long)deepest[export]);
}

int main(int count, char **arguments)
{
    if (count != 3 && count != 5) {
        fprintf(stderr, "usage: drawn CALLS SEED [FROM TO]\n");
        return 2;
    }
    unsigned long calls_asked = strtoul(arguments[1], NULL, 10);
    random_seed(strtoul(arguments[2], NULL, 10));
    if (count == 5) {
        told_from = strtoul(arguments[3], NULL, 10);
        told_to = strtoul(arguments[4], NULL, 10);
    }
    if (watched_count > MOST_WATCHED || row_count > MOST_ROWS) {
        fprintf(stderr, "drawn: there are more exports or rows than it has room for\n");
        return 2;
    }
    lend_memories();
    while (calls_made < calls_asked)
        take_turn();
    bool enough = tell_table();
    enough = tell_rows() && enough;
    tell_stacks();
    return enough ? 0 : 1;
}
