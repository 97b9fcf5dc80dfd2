/*
 * A board without a decoder, for the main loop in board_loop.c: a day's file from standard input says what happens,
 * line after line (day_file.h). `from` lines are what the decoder sends, and an interrupt comes for each; `to`, `reset`
 * and `set` lines are what the rest of the host wants. A checksum packet is an exception: the loop makes it itself
 * where nothing more is to be sent.
 *
 * Whatever goes out is held against the file. Where it is another packet, or none, that is told by the number of the
 * line and ends the program with status 1.
 */
#include "board_loop.h"
#include "day_file.h"
#include "mortisevane.h"

#include <stdio.h>
#include <stdlib.h>

/* How many packets come before the main loop has its turn: the more, the slower is the loop that is played. */
#ifndef DAY_BURST
#define DAY_BURST 4
#endif

/*
 * What the decoder answers where the file has only what the host sends: a status that tells of nothing, or its part ID.
 */
static const uint32_t quiet_status = (uint32_t)MORTISEVANE_PACKET_STATUS << 24;
static const uint32_t part_id = 0xFF000106;

static struct mortisevane_mirror decoder;

/* Whether READY is low for the packet of a `from` line. It falls once for each, and an exchange lets it rise. */
static bool is_ready;
static bool was_interrupted;

/* The next line of the file, if it was read already. */
static struct day_line line;
static bool is_read;

/* The line whose packet is to go out next, if there is one. */
static struct day_line due;
static bool is_due;

/* The next line, which stays the next until it is done; NULL after the last. */
static const struct day_line *next_line(void)
{
    if (!is_read)
        is_read = day_read(&line);
    return is_read ? &line : NULL;
}

static bool is_next(enum day_kind kind)
{
    const struct day_line *next = next_line();

    return next != NULL && next->kind == kind;
}

static void line_is_done(void)
{
    is_read = false;
}

static _Noreturn void fail(unsigned long number, uint32_t packet, const char *what)
{
    fprintf(stderr, "day: line %lu: %08lX %s\n", number, (unsigned long)packet, what);
    exit(EXIT_FAILURE);
}

/* ---- The wires of the decoder ---- */

uint32_t decoder_reset(void)
{
    if (!is_next(DAY_RESET)) {
        fprintf(stderr, "day: line %lu stands where the host resets the decoder\n", line.number);
        exit(EXIT_FAILURE);
    }
    line_is_done();
    decoder = mortisevane_mirror_reset(line.packet).mirror;
    return line.packet;
}

uint32_t decoder_exchange(uint32_t packet)
{
    uint32_t came = decoder.talking != 0 ? quiet_status : part_id;

    if (packet != (is_due ? due.packet : 0))
        fail(is_due ? due.number : line.number, packet, "is sent, which is not what stands there");
    if (!is_due && is_next(DAY_FROM)) {
        came = line.packet;
        line_is_done();
    }
    is_due = false;
    is_ready = false;
    decoder = mortisevane_mirror_step(decoder, packet).mirror;
    return came;
}

void decoder_call(void)
{
    was_interrupted = true;
    decoder_interrupt();
}

/* ---- The rest of the host ---- */

/*
 * A set is wanted when its line is the next one: what came before it has been exchanged by then, and the loop has
 * followed it. A `to` line makes its packet due. A decoder that is talking ignores checksums, so none is due then.
 */
enum wish host_wish(uint32_t *wanted)
{
    bool is_checksum;

    if (is_next(DAY_RESET))
        return WISH_RESET;
    if (is_next(DAY_SET)) {
        line_is_done();
        *wanted = line.set;
        return WISH_SET;
    }
    if (!is_next(DAY_TO))
        return WISH_LATER;
    due = line;
    line_is_done();
    *wanted = due.packet;
    is_checksum = due.packet >> 24 == MORTISEVANE_PACKET_CHECKSUM;
    is_due = is_checksum ? decoder.talking == 0 : mortisevane_may_send(due.packet) == 0;
    return is_checksum ? WISH_NOTHING : WISH_SEND;
}

/* The day is over when its last line is done and no interrupt came since the last sleep. */
bool host_sleep(void)
{
    bool goes_on = was_interrupted || next_line() != NULL;

    if (is_due)
        fail(due.number, due.packet, "is not sent");
    if (is_ready)
        fail(line.number, line.packet, "waits in the decoder, and is not called for");
    for (int count = 0; count < DAY_BURST && !is_ready && is_next(DAY_FROM); count += 1) {
        is_ready = true;
        decoder_interrupt();
    }
    was_interrupted = false;
    return goes_on;
}
