/*
 * The queue between the decoder's interrupt, which puts exchanges in, and the main loop, which takes them out. It takes
 * no lock and holds no interrupt off, and yet no exchange is lost or seen half-written, for these reasons:
 *
 *   - Each counter is written by one side alone, so no count of one side is undone by the other.
 *   - A counter is one word, which the processor reads and writes whole.
 *   - A place is written before `put` counts it, and read before `taken` gives it back; a place that is not free is
 *     never written. The counters are atomic to hold the compiler, and a processor that has several cores, to that
 *     order. `volatile` would not do: it leaves the compiler free to write a place after the counter that tells of it.
 */
#ifndef EXCHANGE_QUEUE_H
#define EXCHANGE_QUEUE_H

#include <stdatomic.h>
#include <stdbool.h>
#include <stdint.h>

/* A power of two, so that the place of a count stays the next one when the counters begin again at 0. */
enum { QUEUE_PLACES = 8 };

/* Both packets of one transfer. The decoder chose the one that came before it had the one that was sent. */
struct exchange {
    uint32_t came;
    uint32_t sent;
};

/* How many were ever put and taken; zeros are an empty queue. */
struct exchange_queue {
    struct exchange places[QUEUE_PLACES];
    atomic_uint put;
    atomic_uint taken;
};

/* For the interrupt: whether there is a place. It stays free until something is put. */
bool queue_has_room(struct exchange_queue *queue);

/* For the interrupt, where there is room. */
void queue_put(struct exchange_queue *queue, struct exchange exchange);

/* For the main loop: whether there was an exchange, the oldest of which is handed over. */
bool queue_take(struct exchange_queue *queue, struct exchange *exchange);

#endif
