/*
 * The main loop of a pager's board, to be copied into firmware: an interrupt exchanges packets with the decoder and
 * puts them into a queue; the loop takes them out, hands them to the pager, sends what the rest of the host wants sent,
 * and has the pager read numeric pages by the set that it wants. It keeps the handshake: what may not be sent is not
 * sent, and a decoder that is not talking is made to talk as soon as there is nothing more to send. With board_day.c it
 * works a day's file and prints what day.c prints.
 *
 * Every transfer goes both ways, and a packet that goes out can end the talking while a page comes in. So the queue
 * holds both packets of an exchange, and the loop hears the one that came before its mirror follows the one that was
 * sent: the order is that of the wire, however late the loop is.
 */
#include "board_loop.h"
#include "exchange_queue.h"
#include "pager.h"

#include <stdio.h>
#include <stdlib.h>

/*
 * What goes out where nothing is to be sent: a checksum packet of zeros, which leaves a talking decoder talking
 * (S8.4.2). It goes through the mirror as any other, for a decoder with a register of zeros takes it as the closing
 * one.
 */
enum { NOTHING = 0 };

static struct pager pager;
static struct exchange_queue queue;

/*
 * What goes out with the next exchange. The loop puts a packet in where there is none, the interrupt takes it out, and
 * an interrupt runs whole between two steps of the loop: so neither overwrites what the other wrote.
 */
static _Atomic uint32_t outgoing;

/* How often the interrupt found no room in the queue. The interrupt alone writes it. */
static atomic_uint times_full;

/*
 * Where there is no room nothing is exchanged, so nothing is lost: the decoder keeps its packets, up to 32 of them
 * (S8.3.1), and tells in a status where those were too many. The exchange is in the queue before `outgoing` is free
 * again.
 */
void decoder_interrupt(void)
{
    struct exchange exchange;

    if (!queue_has_room(&queue)) {
        atomic_store(&times_full, atomic_load(&times_full) + 1);
        return;
    }
    exchange.sent = atomic_load(&outgoing);
    exchange.came = decoder_exchange(exchange.sent);
    queue_put(&queue, exchange);
    atomic_store(&outgoing, NOTHING);
}

/* What waits in the queue from before a reset is heard while the decoder is not talking, and none of it is believed. */
static void reset(void)
{
    bool told_part_id;

    do
        told_part_id = pager_reset(&pager, decoder_reset());
    while (!told_part_id);
}

static void send(uint32_t packet)
{
    atomic_store(&outgoing, packet);
    decoder_call();
}

/*
 * As many exchanges as were in the queue when the turn began, and no more: a decoder that is not talking tells its part
 * ID over and over, and would else keep the loop from ever sending the checksum.
 */
static void follow_exchanges(void)
{
    struct exchange exchange;

    for (int count = 0; count < QUEUE_PLACES && queue_take(&queue, &exchange); count += 1) {
        pager_heard(&pager, exchange.came);
        pager_sent(&pager, exchange.sent);
    }
}

/*
 * A set needs no exchange, and holds from here on: for the pages that are completed by exchanges followed later. Those
 * that waited when the turn began were read by the set of before.
 */
static void follow_wish(void)
{
    uint32_t wanted;

    switch (host_wish(&wanted)) {
    case WISH_RESET:
        reset();
        break;
    case WISH_SEND:
        if (pager_may_send(wanted))
            send(wanted);
        break;
    case WISH_SET:
        pager_choose_set(&pager, wanted);
        break;
    case WISH_NOTHING:
        if (pager.mirror.talking == 0)
            send(mortisevane_mirror_closing(pager.mirror).packet.bits);
        break;
    case WISH_LATER:
        break;
    }
}

/* An interrupt that found no room left READY low, where it does not fall again. Now there is room. */
static void call_for_what_waits(void)
{
    static unsigned called_for;
    unsigned times = atomic_load(&times_full);

    if (times != called_for)
        decoder_call();
    called_for = times;
}

/*
 * Whether a packet may be handed over is asked before the exchanges are followed: where it may, that of the last packet
 * is among them, and the mirror from which a checksum is made has followed it. A wish that sends nothing waits for that
 * too, so that wishes are followed in their order.
 */
int main(void)
{
    reset();
    while (host_sleep()) {
        bool is_free = atomic_load(&outgoing) == NOTHING;
        follow_exchanges();
        if (is_free)
            follow_wish();
        call_for_what_waits();
    }
    pager_end(&pager);
    if (atomic_load(&times_full) != 0)
        fprintf(stderr, "board_loop: the queue was full %u times, and the decoder kept its packets meanwhile\n",
                atomic_load(&times_full));
    return EXIT_SUCCESS;
}
