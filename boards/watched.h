/*
 * What is seen of the calls of a run, so that the library on a board can be held against the shipped one: every call goes
 * through a function that `rust/exports` writes for its export (`exports watched`), which shows here all that goes in and
 * all that comes out. It is folded into two digests, one of the inputs and one of the answers with all lent memory.
 */
#ifndef WATCHED_H
#define WATCHED_H

#include "mortisevane.h"

/* The exports, in the header's order, and the rows that they are lent. */
extern const char *const watched_names[];
extern const int watched_count;
extern const char *const row_names[];
extern const int row_count;

/* A call begins, of the export with this number: what is seen next goes in. */
void watch_inputs(int export);

/* The call has returned, and its stack went so deep: what is seen next comes out. */
void watch_answer(size_t stack);

/* All has been seen. */
void watch_ends(void);

void see(uint64_t number);
void see_row(const void *bytes, size_t length);

/* A row that is lent, by its number, with its length in cells of so many bytes. */
void see_lent(int row, const void *bytes, size_t length, size_t cell);

/* ---- The stack of a call, on a board ---- */

#if defined(__arm__) || defined(__riscv)

enum { PAINTED_WORDS = 1024 };
#define PAINT 0xA5A5A5A5u

/* Part of the function that asks: what a function of its own would keep on the stack would be painted over, or found. */
#define PAINT_STACK() \
    uint32_t *const stack = stack_pointer(); \
    for (volatile uint32_t *place = stack - PAINTED_WORDS; place < stack; place++) \
        *place = PAINT

#define DEEPEST_STACK() deepest_stack(stack)

static inline uint32_t *stack_pointer(void)
{
    uint32_t *pointer;

#ifdef __riscv
    __asm__ volatile("mv %0, sp" : "=r"(pointer));
#else
    __asm__ volatile("mov %0, sp" : "=r"(pointer));
#endif
    return pointer;
}

static inline __attribute__((always_inline)) size_t deepest_stack(uint32_t *stack)
{
    volatile uint32_t *place = stack - PAINTED_WORDS;

    while (place < stack && *place == PAINT)
        place++;
    return (size_t)((uint8_t *)stack - (uint8_t *)place);
}

#else
#define PAINT_STACK()
#define DEEPEST_STACK() 0
#endif

#endif
