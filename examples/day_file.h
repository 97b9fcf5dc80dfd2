/*
 * A day of a pager as a file of packets, which is read from standard input. samples/day.packets is such a file. A line
 * is a comment (`#` first), has nothing on it, or is one of these, where HHHHHHHH are eight upper-case hexadecimal
 * digits. After a space a remark may follow.
 *
 *   reset HHHHHHHH   the host reset the decoder, which told this part ID
 *   to HHHHHHHH      the host sends it
 *   from HHHHHHHH    the decoder sends it
 *   set standard     the pager is set to read numeric pages by the standard set of characters
 *   set chinese      the pager is set to read them by the Chinese set
 */
#ifndef DAY_FILE_H
#define DAY_FILE_H

#include <stdbool.h>
#include <stdint.h>

enum day_kind {
    DAY_RESET,
    DAY_TO,
    DAY_FROM,
    DAY_SET
};

/* A line with a packet or a set; the first line of the file is number 1. */
struct day_line {
    enum day_kind kind;
    /* The packet; 0 where the line has a set. */
    uint32_t packet;
    /* The set, MORTISEVANE_SET_STANDARD or _CHINESE; 0 where the line has a packet. */
    uint32_t set;
    unsigned long number;
};

/*
 * Whether there is one more line with a packet or a set, which is read. Another line than those above is told by its
 * number and ends the program with status 1, and so does an input that cannot be read.
 */
bool day_read(struct day_line *line);

#endif
