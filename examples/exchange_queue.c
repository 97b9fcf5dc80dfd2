#include "exchange_queue.h"

bool queue_has_room(struct exchange_queue *queue)
{
    return atomic_load(&queue->put) - atomic_load(&queue->taken) < QUEUE_PLACES;
}

/* A counter is read and then written, which every processor can; only some can add to it in one step. */
void queue_put(struct exchange_queue *queue, struct exchange exchange)
{
    unsigned put = atomic_load(&queue->put);

    queue->places[put % QUEUE_PLACES] = exchange;
    atomic_store(&queue->put, put + 1);
}

bool queue_take(struct exchange_queue *queue, struct exchange *exchange)
{
    unsigned taken = atomic_load(&queue->taken);

    if (taken == atomic_load(&queue->put))
        return false;
    *exchange = queue->places[taken % QUEUE_PLACES];
    atomic_store(&queue->taken, taken + 1);
    return true;
}
