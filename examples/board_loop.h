/*
 * What the main loop in board_loop.c asks of the board that it runs on: the wires of the decoder, and the rest of the
 * host. A board fills these functions in. board_day.c does so with a day's file, for a machine that has no decoder.
 */
#ifndef BOARD_LOOP_H
#define BOARD_LOOP_H

#include <stdbool.h>
#include <stdint.h>

/* ---- The wires of the decoder (S8.3) ---- */

/*
 * Resets the decoder and answers what it tells first, its part ID (S8.2.2, S8.4.3): RESET goes low and high again,
 * READY goes low after about a second, and 32 zeros are exchanged for the part ID. The interrupt is held off meanwhile,
 * and until the first reset.
 */
uint32_t decoder_reset(void);

/*
 * Exchanges 32 bits with the decoder, the highest first, and answers those that came. The host pulls SS low, clocks
 * when READY is low, and lets SS go when READY is high again. This is done alike whether the host or the decoder began
 * (S8.3.3, S8.3.4).
 */
uint32_t decoder_exchange(uint32_t packet);

/*
 * Has the interrupt come though READY did not fall, by setting it pending: the host has a packet to send. A call too
 * many does no harm, for zeros go out then and a status comes.
 */
void decoder_call(void);

/* The interrupt itself, which the main loop has. The board calls it when READY falls, and never from within itself. */
void decoder_interrupt(void);

/* ---- The rest of the host ---- */

enum wish {
    /* Nothing is to be sent. */
    WISH_NOTHING,
    /* There is more to send, but not yet: a decoder that is not talking is left so. */
    WISH_LATER,
    WISH_SEND,
    WISH_RESET,
    /* Numeric pages are to be read by another set of characters. */
    WISH_SET
};

/*
 * What is to be done next for the rest of the host: its set-up, its buttons, its clock. What is wanted is handed over:
 * the packet to send, or the set, MORTISEVANE_SET_STANDARD or _CHINESE.
 */
enum wish host_wish(uint32_t *wanted);

/*
 * Sleeps until an interrupt has come. It must return at once where one came since the last sleep, else a packet that
 * came just before would lie until the next (on a Cortex-M the instruction WFE does it right, and WFI does not), and
 * where there is a wish to send, to reset or for a set. Answers whether the day goes on, which on a board it always
 * does.
 */
bool host_sleep(void);

#endif
