/*
 * Random numbers by xorshift64*: the same for the same seed, so that a failure can be run again. What is drawn from them
 * is drawn one by one: of two draws in one expression the compiler may choose which comes first.
 */
#include "fuzz.h"

static uint64_t state;

void random_seed(uint64_t seed)
{
    /* The state must not be 0; odd multiplication and the set bit keep seeds apart but for their highest bit. */
    state = (seed * 0x9E3779B97F4A7C15u) << 1 | 1;
    for (int turn = 0; turn < 16; turn++)
        random_bits();
}

uint64_t random_bits(void)
{
    state ^= state >> 12;
    state ^= state << 25;
    state ^= state >> 27;
    return state * 0x2545F4914F6CDD1Du;
}

uint64_t random_below(uint64_t limit)
{
    return (random_bits() >> 16) % limit;
}

uint64_t random_between(uint64_t least, uint64_t most)
{
    return least + random_below(most - least + 1);
}

bool one_in(uint64_t cases)
{
    return random_below(cases) == 0;
}

uint64_t random_of_width(unsigned most_bits)
{
    unsigned bits = (unsigned)random_between(0, most_bits);
    return bits == 0 ? 0 : random_bits() >> (64 - bits);
}

/* Up to a most; and where there is room for so many, often just over what 16 bits can count. */
static size_t rare_length(size_t usual, size_t most)
{
    if (most < OVER_16_BITS + usual)
        return one_in(4) ? random_between(0, most) : usual;
    return OVER_16_BITS + random_between(0, usual);
}

size_t random_length(size_t usual, size_t most)
{
    switch (random_below(16)) {
    case 0:
        return 0;
    case 1:
    case 2:
    case 3:
        return random_between(usual < 2 ? 0 : usual - 2, usual + 2);
    case 4:
        return one_in(2) ? rare_length(usual, most) : usual;
    default:
        return random_between(0, usual);
    }
}

void random_fill(void *bytes, size_t length)
{
    uint8_t *filled = bytes;
    while (length >= 8) {
        uint64_t bits = random_bits();
        memcpy(filled, &bits, 8);
        filled += 8;
        length -= 8;
    }
    uint64_t bits = random_bits();
    memcpy(filled, &bits, length);
}

void random_flip(void *bytes, size_t length)
{
    uint8_t *changed = bytes;
    size_t bit = random_below(8 * length);
    changed[bit / 8] ^= (uint8_t)(1u << bit % 8);
}
