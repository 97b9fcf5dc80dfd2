/*
 * A pager's host over libmortisevane.a: what a board keeps between packets, and what it does with each of them. It
 * prints what it makes of them; a board would show it.
 */
#ifndef PAGER_H
#define PAGER_H

#include "mortisevane.h"

#include <stdbool.h>

/* Temporary addresses have the address numbers 16 to 31 (S8.7.2). */
enum { PAGER_TEMPORARIES = 16, PAGER_FIRST_TEMPORARY = 16 };

/*
 * The state, and the memory that the library is lent with every packet. Nothing else is kept. Zeros are a pager whose
 * decoder was not reset yet: it is not talking, so nothing that comes is believed.
 */
struct pager {
    struct mortisevane_mirror mirror;
    struct mortisevane_calls calls;
    struct mortisevane_chains chains;
    uint32_t words[MORTISEVANE_CALL_WORDS];
    uint8_t texts[MORTISEVANE_CHAIN_BYTES];
    /* The temporary addresses that were assigned in the present frame, bit a for address 16 + a. */
    uint16_t assigned;
    /* The designated frame of each of them, 0 to 127. */
    uint8_t designated[PAGER_TEMPORARIES];
    /*
     * The set of characters by which numeric pages are read, MORTISEVANE_SET_STANDARD or _CHINESE; zeros are the
     * standard one. No packet tells which set a sender uses: it is a setting of the pager.
     */
    uint32_t set;
};

/*
 * The decoder was reset and told its part ID. Calls, chains and assignments of before are gone; the set of numeric
 * pages is the pager's own, and stays. Answers whether what it told is a part ID; where it is not, nothing is known of
 * the decoder until the next reset.
 */
bool pager_reset(struct pager *pager, uint32_t part_id);

/* Whether a packet may go out to the decoder. */
bool pager_may_send(uint32_t packet);

/* A packet that may go out went out to the decoder. */
void pager_sent(struct pager *pager, uint32_t packet);

/* A packet from the decoder. */
void pager_heard(struct pager *pager, uint32_t packet);

/*
 * Numeric pages that are complete from now on are read by this set, MORTISEVANE_SET_STANDARD or _CHINESE. By a number
 * that is neither the library refuses every one of them, with 7.
 */
void pager_choose_set(struct pager *pager, uint32_t set);

/* The end of the day: the texts of which a part never came. */
void pager_end(const struct pager *pager);

#endif
