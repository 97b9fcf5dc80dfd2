/*
 * A board whose interrupt comes anywhere, to try the main loop in board_loop.c: wherever a function of the program
 * begins or ends the decoder may want an exchange, and what the rest of the host wants is drawn. The compiler's option
 * -finstrument-functions has the two functions at the end of this file called there.
 *
 * The decoder keeps its own register (S8.4.2), and sends its part ID or, while it is talking, a status. A loop whose
 * mirror is one exchange too early or too late has the pager refuse a packet or leave it aside, and prints that; a loop
 * that is right prints `talking` and `silent` by turns and nothing else. A checksum that does not make the decoder talk
 * is told and ends the program with status 1, and so is a decoder that is left silent for long.
 */
#include "board_loop.h"
#include "mortisevane.h"

#include <stdio.h>
#include <stdlib.h>

enum {
    EXCHANGES = 100000,
    /* After so many the interrupt comes less often: at first the queue is mostly full, at last mostly empty. */
    CALMER = 10000,
    MOST_SILENT = 2000,
    ID_PLACE = 24,
    DATA_BITS = 0xFFFFFF,
    /* So few different packets that the register is 0 at times, where the zeros of nothing are the checksum. */
    PACKETS = 0x200
};

static const uint32_t part_id = 0xFF000106;

static uint32_t sum_register;
static bool is_talking;
static uint32_t exchanges;
static uint32_t silent_exchanges;

/* Whether no interrupt may come: before the reset, and while there is one. */
static bool is_held_off = true;

/* A number below the limit; the same ones in every run. */
static uint32_t draw(uint32_t limit)
{
    static uint32_t state = 2463534242;

    state ^= state << 13;
    state ^= state >> 17;
    state ^= state << 5;
    return state % limit;
}

static void interrupt(void)
{
    if (is_held_off)
        return;
    is_held_off = true;
    decoder_interrupt();
    is_held_off = false;
}

static void hold(bool truth, const char *what)
{
    if (truth)
        return;
    fprintf(stderr, "board_drawn: exchange %lu: %s\n", (unsigned long)exchanges, what);
    exit(EXIT_FAILURE);
}

uint32_t decoder_reset(void)
{
    sum_register = part_id & DATA_BITS;
    is_held_off = false;
    return part_id;
}

/* Zeros that are not the register are no attempt at a checksum: nothing is to be sent. */
uint32_t decoder_exchange(uint32_t packet)
{
    uint32_t came = is_talking ? (uint32_t)MORTISEVANE_PACKET_STATUS << ID_PLACE : part_id;

    exchanges += 1;
    if (packet >> ID_PLACE != MORTISEVANE_PACKET_CHECKSUM) {
        sum_register ^= packet & DATA_BITS;
        is_talking = false;
    } else if (packet == sum_register) {
        is_talking = true;
    } else {
        hold(packet == 0, "the checksum is wrong");
    }
    silent_exchanges = is_talking ? 0 : silent_exchanges + 1;
    hold(silent_exchanges < MOST_SILENT, "the decoder is silent for too long");
    return came;
}

/* The interrupt that is called for comes at once or some time later. */
void decoder_call(void)
{
    if (draw(2) == 0)
        interrupt();
}

enum wish host_wish(uint32_t *wanted)
{
    *wanted = (uint32_t)MORTISEVANE_PACKET_ADDRESS_ENABLE << ID_PLACE | draw(PACKETS);
    switch (draw(4)) {
    case 0:
        return WISH_LATER;
    case 1:
        return WISH_SEND;
    default:
        return WISH_NOTHING;
    }
}

bool host_sleep(void)
{
    return exchanges < EXCHANGES;
}

/* ---- What the compiler has called where a function begins or ends ---- */

__attribute__((no_instrument_function)) void __cyg_profile_func_enter(void *function, void *caller);
__attribute__((no_instrument_function)) void __cyg_profile_func_exit(void *function, void *caller);

void __cyg_profile_func_enter(void *function, void *caller)
{
    static bool is_drawing;

    (void)function;
    (void)caller;
    if (is_drawing)
        return;
    is_drawing = true;
    if (draw(2 + exchanges / CALMER * 4) == 0)
        interrupt();
    is_drawing = false;
}

void __cyg_profile_func_exit(void *function, void *caller)
{
    __cyg_profile_func_enter(function, caller);
}
