/*
 * Lent memory: rows of it, and what is held of a memory after a call. Where the memory lies is the program's to say
 * (guard.c, and on a board drawn_memory.c).
 */
#include "fuzz.h"

struct memory read_memory, write_memory, chain_memory, call_memory, pocsag_memory;

struct memory *const memories[MEMORY_COUNT] = { &read_memory, &write_memory, &chain_memory, &call_memory, &pocsag_memory };

void fill_memory(struct memory *memory)
{
    random_fill(memory->writable, MEMORY_BYTES);
    remember(row_at_front(memory, MEMORY_BYTES));
}

struct row row_at_front(struct memory *memory, size_t length)
{
    return (struct row) { .memory = memory, .place = 0, .length = length };
}

struct row row_at_end(struct memory *memory, size_t length)
{
    return (struct row) { .memory = memory, .place = MEMORY_BYTES - length, .length = length };
}

struct row lend_row(struct memory *memory, size_t length)
{
    return one_in(2) ? row_at_front(memory, length) : row_at_end(memory, length);
}

void *to_fill(struct row row)
{
    return row.memory->writable + row.place;
}

const void *to_read(struct row row)
{
    return row.memory->read_only + row.place;
}

void *to_write(struct row row)
{
    return row.memory->writable + row.place;
}

struct row lend_copy(const void *bytes, size_t length)
{
    struct row row = lend_row(&read_memory, length);
    memcpy(to_fill(row), bytes, length);
    return row;
}

struct row lend_long_copy(const void *bytes, size_t length)
{
    size_t room = MEMORY_BYTES - length;
    if (room < OVER_16_BITS)
        return lend_copy(bytes, length);
    struct row row = row_at_front(&read_memory, OVER_16_BITS + length);
    memcpy(to_fill(row), bytes, length);
    return row;
}

const void *as_before(struct row row)
{
    return row.memory->before + row.place;
}

void remember(struct row row)
{
    memcpy(row.memory->before + row.place, row.memory->writable + row.place, row.length);
}

/* The row with what is looked at on both sides of it. */
static struct row around(struct row row)
{
    size_t before = row.place < LOOKED_AT_BYTES ? row.place : LOOKED_AT_BYTES;
    size_t after = MEMORY_BYTES - row.place - row.length;
    if (after > LOOKED_AT_BYTES)
        after = LOOKED_AT_BYTES;
    return (struct row) { .memory = row.memory, .place = row.place - before, .length = before + row.length + after };
}

static bool is_as_before(const struct memory *memory, size_t begin, size_t end)
{
    return memcmp(memory->writable + begin, memory->before + begin, end - begin) == 0;
}

void hold_written_only(struct row row, size_t from, size_t length)
{
    hold(from <= row.length && length <= row.length - from, "more is told as written than was lent");
    struct row looked_at = around(row);
    size_t begin = row.place + from;
    size_t end = begin + length;
    hold(is_as_before(row.memory, looked_at.place, begin), "written before what is told");
    hold(is_as_before(row.memory, end, looked_at.place + looked_at.length), "written after what is told");
    remember((struct row) { .memory = row.memory, .place = begin, .length = length });
}

void hold_unwritten(struct row row)
{
    struct row looked_at = around(row);
    hold(is_as_before(row.memory, looked_at.place, looked_at.place + looked_at.length), "written although nothing is told");
}
