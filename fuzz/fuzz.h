/* What the parts of the fuzzing share: the exports, random numbers, lent memory, and what is held of an answer. */
#ifndef FUZZ_H
#define FUZZ_H

#include <stdbool.h>
#include <string.h>

#include "mortisevane.h"

/* ---- The exports, which tools/fuzz takes from the header with the refusals that each names ---- */

enum export {
#define EXPORT(name, refusals) EXPORT_##name,
#include "exports.inc"
#undef EXPORT
    EXPORT_COUNT
};

/* One for each export: makes inputs for it, calls it, and holds its answers to what the header says. */
#define EXPORT(name, refusals) void fuzz_##name(void);
#include "exports.inc"
#undef EXPORT

/* A call of an export, which is counted and told where something fails in it. */
#define CALL(name, ...) (begin_call(EXPORT_##name), mortisevane_##name(__VA_ARGS__))

/* To be called before every call: which export it is. */
void begin_call(enum export called);

/*
 * To be called after every call: the number must be one that the header has and names for the export. An export
 * without a `number` is told by 0.
 */
void answered(uint32_t number);

/* Ends the run with a failure where the truth does not hold. */
void hold(bool truth, const char *what);

/* Tells what fails and in which call, and ends the run. The program that makes the calls has it. */
_Noreturn void fail(const char *what);

/* 1 is told only where less was lent than the header calls always enough. */
void hold_room(uint32_t number, size_t lent, size_t enough);

/* Whether all bytes are 0, of a part of an answer that has no padding. */
bool all_zero(const void *bytes, size_t length);

/* ---- Turns, and what came of them (held.c) ---- */

/* How many calls were made, and the names of the export that is called and of the one whose turn it is. */
extern uint64_t calls_made;
const char *called_name(void);
const char *turn_name(void);

/* Gives a turn to an export, by chance: half of all turns go to those that are lent memory or handed back a state. */
void take_turn(void);

/*
 * Prints a table of the calls, how many were accepted and how many were refused by each number. Answers whether every
 * export had an accepted call and gave each refusal that the header names for it.
 */
bool tell_table(void);

/* Prints the names of the exports. */
void tell_names(void);

/* ---- Random numbers (random.c) ---- */

void random_seed(uint64_t seed);
uint64_t random_bits(void);

/* 0 to limit - 1. */
uint64_t random_below(uint64_t limit);

/* From least to most, both with it. */
uint64_t random_between(uint64_t least, uint64_t most);

/* True in one of so many cases. */
bool one_in(uint64_t cases);

/* A number of at most so many bits, whose count of bits is random too: small numbers come as often as large ones. */
uint64_t random_of_width(unsigned most_bits);

/* The first number that 16 bits cannot count. Where there is room, rows are now and then longer than this. */
enum { OVER_16_BITS = 65536 };

/* The width of the numbers that are drawn for a size_t. A program that is held against one on a board has 32 bits too. */
#ifndef SIZE_BITS
#define SIZE_BITS 64
#endif

/* How many a row has: mostly up to a usual number or near it; sometimes none, sometimes up to a most. */
size_t random_length(size_t usual, size_t most);

void random_fill(void *bytes, size_t length);

/* Changes one bit of a row that is not empty. */
void random_flip(void *bytes, size_t length);

/* ---- Lent memory (lend.c) ---- */

/* How large each memory is. A program may have it larger, so that rows of over 65,536 words can be lent. */
#ifndef MEMORY_PAGES
#define MEMORY_PAGES 4
#endif
enum { PAGE_BYTES = 4096, MEMORY_BYTES = MEMORY_PAGES * PAGE_BYTES, MEMORY_WORDS = MEMORY_BYTES / 4 };

/* How much of a memory is looked at on both sides of a row. A program may look at less than all of it. */
#ifndef LOOKED_AT_BYTES
#define LOOKED_AT_BYTES MEMORY_BYTES
#endif

/*
 * What a program lends from. What is lent for reading may lie elsewhere than what is lent for writing, and is the same
 * memory all the same. `before` is what it held before a call.
 */
struct memory {
    uint8_t *writable;
    uint8_t *read_only;
    uint8_t *before;
};

/*
 * What exports are lent: texts and words to read, room to write in, the buffer of chains, the words of calls, the words
 * of POCSAG pages.
 */
extern struct memory read_memory, write_memory, chain_memory, call_memory, pocsag_memory;

enum { MEMORY_COUNT = 5 };
extern struct memory *const memories[MEMORY_COUNT];

/* Fills a memory whose three parts are there with random bytes. */
void fill_memory(struct memory *memory);

/* A row: so many bytes at the front of a memory, right after the page before it, or right before the page after it. */
struct row {
    struct memory *memory;
    size_t place;
    size_t length;
};

/* A row at one of the two ends, by chance. */
struct row lend_row(struct memory *memory, size_t length);
struct row row_at_front(struct memory *memory, size_t length);
struct row row_at_end(struct memory *memory, size_t length);

/* The row as its three users see it: the fuzzing fills it, an export reads it, an export writes it. */
void *to_fill(struct row row);
const void *to_read(struct row row);
void *to_write(struct row row);

/* A row of the memory for reading, with a copy of these bytes. */
struct row lend_copy(const void *bytes, size_t length);

/*
 * A row that begins with these bytes and has 65,536 bytes more, so that 16 bits would count as many as there are of
 * these; where the memory has no room for it, these bytes alone.
 */
struct row lend_long_copy(const void *bytes, size_t length);

/* What a row held before the call. */
const void *as_before(struct row row);

/* Takes what a row holds now for what it held before the next call. */
void remember(struct row row);

/* After a call: nothing that is looked at is other than it was, but so many bytes from a place of the row on. */
void hold_written_only(struct row row, size_t from, size_t length);
void hold_unwritten(struct row row);

/* ---- Messages, for the exports that take words (message.c) ---- */

/* A text that mortisevane_text_cut took, with its words. */
struct message {
    uint32_t words[MORTISEVANE_CUT_WORDS];
    uint8_t text[MORTISEVANE_TEXT_CHARACTERS];
    size_t characters;
    size_t largest;
    size_t fragments;
    size_t total;
    uint32_t address;
    size_t next;
};

/* One of the messages that were cut last. */
struct message *some_message(void);

/* The words of one of its fragments, lent for reading. */
struct row lend_fragment(const struct message *message, size_t fragment);

/* The words of a fragment as they may come: good, changed by a bit, changed and summed again, or any words. */
struct row lend_some_fragment(const struct message *message, size_t fragment);

/* Any words: of 32 bits, of 21, or of few; many of them or none. */
struct row lend_some_words(size_t usual);

#endif
