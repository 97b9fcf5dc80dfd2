#include "pager.h"

#include <stdio.h>

enum {
    ID_PLACE = 24,
    FIRST_PRINTABLE = 0x20,
    LAST_PRINTABLE = 0x7E
};

/* A packet is any 32 bits, and is shown by all of its digits. */
static void print_packet(const char *before, uint32_t packet)
{
    printf("%s%08lX\n", before, (unsigned long)packet);
}

static void print_refused(uint32_t number, uint32_t packet)
{
    printf("refused %lu", (unsigned long)number);
    print_packet(": ", packet);
}

static void print_address(uint32_t address)
{
    printf("address %lu", (unsigned long)address);
}

/* A text through the air may hold any character: nothing is hidden, and a terminal is safe. */
static void print_text(const uint8_t *text, size_t length)
{
    putchar('[');
    for (size_t place = 0; place < length; place += 1) {
        unsigned character = text[place];
        if (character == '\\')
            printf("\\\\");
        else if (character >= FIRST_PRINTABLE && character <= LAST_PRINTABLE)
            putchar((int)character);
        else
            printf("\\x%02X", character);
    }
    putchar(']');
}

/*
 * After a refusal too the decoder has been reset, and nothing of before holds but the set, which the decoder does not
 * know. The answer's mirror is then that of zeros.
 */
bool pager_reset(struct pager *pager, uint32_t part_id)
{
    struct mortisevane_mirrored answer = mortisevane_mirror_reset(part_id);

    pager->mirror = answer.mirror;
    pager->calls = mortisevane_calls_fresh();
    pager->chains = mortisevane_chains_fresh();
    pager->assigned = 0;
    if (answer.number == 0)
        print_packet("reset: part ID ", part_id);
    else
        print_refused(answer.number, part_id);
    return answer.number == 0;
}

bool pager_may_send(uint32_t packet)
{
    uint32_t refused = mortisevane_may_send(packet);

    if (refused != 0) {
        printf("not sent, %lu", (unsigned long)refused);
        print_packet(": ", packet);
    }
    return refused == 0;
}

/* After a refusal, which a register of the library's own never gives, the answer's mirror is the one handed in. */
void pager_sent(struct pager *pager, uint32_t packet)
{
    bool was_talking = pager->mirror.talking != 0;
    struct mortisevane_mirrored answer = mortisevane_mirror_step(pager->mirror, packet);

    pager->mirror = answer.mirror;
    if (answer.number != 0)
        print_refused(answer.number, packet);
    if (!was_talking && answer.mirror.talking != 0)
        puts("talking");
    if (was_talking && answer.mirror.talking == 0)
        puts("silent");
}

static void hear_address(struct pager *pager, uint32_t packet)
{
    struct mortisevane_call_opening opening = mortisevane_call_open(pager->calls, packet);

    pager->calls = opening.calls;
    if (opening.answer.number != 0) {
        print_refused(opening.answer.number, packet);
    } else if (opening.answer.opened == 0) {
        print_address(opening.answer.fields.address);
        puts(": tone");
    }
}

/*
 * The wait for each temporary address that was assigned in a frame that has ended. Which frame it was its end tells
 * (S8.8.4), if the decoder knows it.
 */
static void tell_waits(struct pager *pager, const struct mortisevane_status *ended)
{
    for (uint32_t place = 0; place < PAGER_TEMPORARIES; place += 1) {
        uint32_t designated = pager->designated[place];
        if ((pager->assigned >> place & 1) == 0)
            continue;
        print_address(PAGER_FIRST_TEMPORARY + place);
        printf(": awaits frame %lu, ", (unsigned long)designated);
        if (ended->frame_valid != 0)
            printf("%lu frames\n", (unsigned long)mortisevane_frames_wait(ended->frame, designated).frames);
        else
            puts("from a frame that is not known");
    }
    pager->assigned = 0;
}

/* A status says many things, of which this pager looks at one: that a frame has ended. */
static void hear_status(struct pager *pager, uint32_t packet)
{
    struct mortisevane_status_read status = mortisevane_read_status(packet);
    struct mortisevane_frame_end end;

    if (status.fields.end_of_frame == 0)
        return;
    end = mortisevane_call_end(pager->calls, pager->words, MORTISEVANE_CALL_WORDS);
    pager->calls = end.calls;
    if (end.number != 0)
        print_refused(end.number, packet);
    for (size_t place = 0; place < end.incomplete.size; place += 1) {
        const struct mortisevane_call *call = &end.incomplete.calls[place];
        printf("incomplete: ");
        print_address(call->address);
        if (call->has_vector != 0)
            printf(", %lu words\n", (unsigned long)call->words);
        else
            puts(", no vector");
    }
    tell_waits(pager, &status.fields);
}

void pager_choose_set(struct pager *pager, uint32_t set)
{
    pager->set = set;
    if (set == MORTISEVANE_SET_STANDARD)
        puts("set: standard");
    else if (set == MORTISEVANE_SET_CHINESE)
        puts("set: chinese");
    else
        printf("set: %lu\n", (unsigned long)set);
}

/*
 * A display shows what stands before the spaces at the end, so that its places are left for characters of the page.
 * Which of these spaces the sender wrote and which fill the last word nobody can tell: they are told by their number.
 */
static void print_page(const uint8_t *text, const struct mortisevane_page_read *page)
{
    print_text(text, page->characters - page->spaces_at_end);
    if (page->spaces_at_end == 1)
        printf(", 1 space at the end");
    else if (page->spaces_at_end != 0)
        printf(", %lu spaces at the end", (unsigned long)page->spaces_at_end);
    putchar('\n');
}

static void page_numeric(const struct pager *pager, const struct mortisevane_call *call, const uint32_t *words)
{
    uint8_t text[MORTISEVANE_PAGE_CHARACTERS];
    struct mortisevane_page_read page = mortisevane_numeric_read(pager->set, call->kind, call->check,
            words, call->words, text, sizeof text);

    print_address(call->address);
    if (page.number != 0) {
        printf(": numeric page refused %lu\n", (unsigned long)page.number);
        return;
    }
    printf(": numeric ");
    print_page(text, &page);
}

/* A text that is handed out lies in the lent texts, and is to be read before the next fragment. */
static void join_fragment(struct pager *pager, const struct mortisevane_call *call, const uint32_t *words)
{
    struct mortisevane_chain_step step = mortisevane_chain_step(pager->chains,
            pager->texts, MORTISEVANE_CHAIN_BYTES, call->address, words, call->words);
    struct mortisevane_fragment_read heading = mortisevane_fragment_heading(words, call->words);

    pager->chains = step.chains;
    print_address(call->address);
    if (step.answer.number != 0) {
        printf(": fragment refused %lu", (unsigned long)step.answer.number);
    } else {
        printf(", message %lu: ", (unsigned long)heading.message_number);
        if (step.answer.complete != 0)
            print_text(pager->texts + step.answer.place, step.answer.characters);
        else
            printf("fragment taken");
    }
    if (step.answer.lost != 0)
        printf(", an open chain is lost");
    putchar('\n');
}

/* A short instruction has no words: all of it is in its vector. Its wait is told at the end of the frame. */
static void follow_instruction(struct pager *pager, const struct mortisevane_call *call, uint32_t vector)
{
    struct mortisevane_instruction instruction = mortisevane_read_vector(vector).fields.instruction;

    print_address(call->address);
    if (instruction.kind == MORTISEVANE_INSTRUCTION_TEMPORARY) {
        uint32_t place = instruction.address - PAGER_FIRST_TEMPORARY;
        pager->assigned |= (uint16_t)(1u << place);
        pager->designated[place] = (uint8_t)instruction.frame;
        printf(": temporary address %lu in frame %lu\n", (unsigned long)instruction.address,
                (unsigned long)instruction.frame);
    } else {
        printf(": instruction type %lu, not read\n", (unsigned long)instruction.kind);
    }
}

/* A call that a packet has completed: its last word, or the vector of one that has no words. */
static void page(struct pager *pager, const struct mortisevane_call *call, uint32_t packet)
{
    const uint32_t *words = pager->words + mortisevane_call_place(*call);

    switch (call->kind) {
    case MORTISEVANE_VECTOR_INSTRUCTION:
        follow_instruction(pager, call, packet);
        break;
    case MORTISEVANE_VECTOR_STANDARD:
    case MORTISEVANE_VECTOR_SPECIAL:
    case MORTISEVANE_VECTOR_NUMBERED:
        page_numeric(pager, call, words);
        break;
    case MORTISEVANE_VECTOR_ALPHANUMERIC:
        join_fragment(pager, call, words);
        break;
    default:
        print_address(call->address);
        printf(": vector type %lu, not read\n", (unsigned long)call->kind);
    }
}

/* A word may complete several calls, those of a group page; the one opened first is paged first. */
static void hear_word(struct pager *pager, uint32_t packet)
{
    struct mortisevane_call_hearing hearing = mortisevane_call_hear(pager->calls,
            pager->words, MORTISEVANE_CALL_WORDS, packet);

    pager->calls = hearing.calls;
    if (hearing.answer.number != 0)
        print_refused(hearing.answer.number, packet);
    for (size_t place = 0; place < MORTISEVANE_CALLS; place += 1) {
        if ((hearing.answer.completed >> place & 1) != 0)
            page(pager, &hearing.calls.calls[place], packet);
    }
}

/*
 * A decoder that is not talking tells its part ID over and over and nothing else: whatever seems to come from it is not
 * believed.
 */
void pager_heard(struct pager *pager, uint32_t packet)
{
    uint32_t id = packet >> ID_PLACE;

    if (pager->mirror.talking == 0) {
        if (id != MORTISEVANE_PACKET_PART_ID)
            print_packet("left aside, the decoder is not talking: ", packet);
    } else if (id == MORTISEVANE_PACKET_ADDRESS) {
        hear_address(pager, packet);
    } else if (id == MORTISEVANE_PACKET_STATUS) {
        hear_status(pager, packet);
    } else if (id >= MORTISEVANE_PACKET_FIRST_VECTOR && id <= MORTISEVANE_PACKET_LAST_WORD) {
        hear_word(pager, packet);
    } else {
        print_refused(MORTISEVANE_REFUSED_PACKET, packet);
    }
}

void pager_end(const struct pager *pager)
{
    for (size_t slot = 0; slot < MORTISEVANE_SLOTS; slot += 1) {
        const struct mortisevane_chain *chain = &pager->chains.slots[slot];
        if (chain->is_open == 0)
            continue;
        printf("open: ");
        print_address(chain->address);
        printf(", message %lu, awaits %lu\n", (unsigned long)chain->message_number,
                (unsigned long)chain->next_fragment);
    }
}
