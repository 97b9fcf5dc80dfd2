/* Chains of fragments. */
#include "fuzz.h"

/* The records as the last answer left them. Most calls go on from there; the texts are in the memory of chains. */
static struct mortisevane_chains kept_chains;

/* At which end of its memory the buffer lies, until all is begun anew, and how long it is. */
static struct row kept_buffer;

static bool same_chain(const struct mortisevane_chain *left, const struct mortisevane_chain *right)
{
    return left->is_open == right->is_open && left->address == right->address
        && left->message_number == right->message_number && left->next_fragment == right->next_fragment
        && left->sum == right->sum && left->characters == right->characters;
}

static bool is_blank(const struct mortisevane_chain *chain)
{
    static const struct mortisevane_chain blank;
    return same_chain(chain, &blank);
}

static bool same_chains(const struct mortisevane_chains *left, const struct mortisevane_chains *right)
{
    for (int slot = 0; slot < MORTISEVANE_SLOTS; slot++)
        if (!same_chain(&left->slots[slot], &right->slots[slot]))
            return false;
    return true;
}

static struct mortisevane_chains ask_fresh(void)
{
    struct mortisevane_chains chains = CALL(chains_fresh);
    answered(0);
    for (int slot = 0; slot < MORTISEVANE_SLOTS; slot++)
        hold(is_blank(&chains.slots[slot]), "a fresh record is not all zero");
    return chains;
}

void fuzz_chains_fresh(void)
{
    struct mortisevane_chains chains = ask_fresh();
    if (one_in(8))
        kept_chains = chains;
}

static struct mortisevane_chain some_chain(void)
{
    struct mortisevane_chain chain = { .is_open = 1 };
    chain.address = (uint32_t)random_below(32);
    chain.message_number = (uint32_t)random_below(64);
    chain.next_fragment = (uint32_t)random_below(3);
    chain.sum = (uint32_t)random_below(128);
    chain.characters = random_below(MORTISEVANE_TEXT_CHARACTERS + 1);
    return chain;
}

/* A bit of a record is changed, or the record is another chain's; or all texts are nearly as long as they may get. */
static void damage(struct mortisevane_chains *chains)
{
    struct mortisevane_chain *chain = &chains->slots[random_below(MORTISEVANE_SLOTS)];
    switch (random_below(4)) {
    case 0:
        random_flip(chain, sizeof *chain);
        break;
    case 1:
        *chain = some_chain();
        break;
    case 2:
        *chain = chains->slots[random_below(MORTISEVANE_SLOTS)];
        break;
    default:
        for (int slot = 0; slot < MORTISEVANE_SLOTS; slot++)
            if (chains->slots[slot].is_open != 0)
                chains->slots[slot].characters = MORTISEVANE_TEXT_CHARACTERS - random_below(32);
    }
}

/* The kept records, seldom damaged, random or begun anew, or records that may be. */
static struct mortisevane_chains some_chains(void)
{
    struct mortisevane_chains chains = kept_chains;
    if (one_in(64))
        damage(&chains);
    if (one_in(256))
        for (int slot = 0; slot < MORTISEVANE_SLOTS; slot++)
            chains.slots[slot] = one_in(2) ? some_chain() : (struct mortisevane_chain) { 0 };
    if (one_in(256))
        chains = ask_fresh();
    if (one_in(64))
        random_fill(&chains, sizeof chains);
    return chains;
}

/* The open slot of a key, or the number of slots. */
static size_t slot_of(const struct mortisevane_chains *chains, uint32_t address, uint32_t message_number)
{
    size_t slot = 0;
    while (slot < MORTISEVANE_SLOTS
        && (chains->slots[slot].is_open == 0 || chains->slots[slot].address != address
            || chains->slots[slot].message_number != message_number))
        slot++;
    return slot;
}

/* An accepted fragment has written its text at its chain's end, and no other byte. */
static void hold_joined(const struct mortisevane_chain_step *step, struct row buffer, uint32_t address, struct row words)
{
    struct row text = lend_row(&write_memory, MORTISEVANE_FRAGMENT_CHARACTERS);
    struct mortisevane_fragment_read read = CALL(fragment_read, to_read(words), words.length / 4, to_write(text), text.length);
    answered(read.number);
    hold(read.number == 0, "a refused fragment was joined");
    hold_written_only(text, 0, read.characters);
    hold((step->answer.complete == 0) == (read.continued == 1), "a text is handed out though more follows, or not");
    hold((step->answer.begun == 1) == (read.fragment_number == 3), "a later fragment begins a chain");
    size_t slot = slot_of(&step->chains, address, read.message_number);
    size_t end = step->answer.characters;
    if (step->answer.complete == 0) {
        hold(slot < MORTISEVANE_SLOTS, "a taken fragment has no open chain");
        end = step->chains.slots[slot].characters;
    } else {
        hold(slot == MORTISEVANE_SLOTS, "a text is handed out and its chain is open");
        slot = step->answer.slot;
        hold(slot < MORTISEVANE_SLOTS && is_blank(&step->chains.slots[slot]), "a text of no slot");
        hold(step->answer.place == slot * MORTISEVANE_TEXT_CHARACTERS, "a text of no slot's place");
    }
    hold(end >= read.characters && end <= MORTISEVANE_TEXT_CHARACTERS, "a text too long for its slot");
    size_t from = slot * MORTISEVANE_TEXT_CHARACTERS + end - read.characters;
    hold_written_only(buffer, from, read.characters);
    hold(memcmp((const uint8_t *)to_fill(buffer) + from, to_fill(text), read.characters) == 0, "joined is not what came");
}

/* After a refusal the buffer is as it was, and the records too but for the chain that 14, 15 and 16 close. */
static void hold_refused(const struct mortisevane_chains *before, const struct mortisevane_chain_step *step, struct row buffer)
{
    uint32_t number = step->answer.number;
    bool closes = number >= MORTISEVANE_REFUSED_OUT_OF_TURN && number <= MORTISEVANE_REFUSED_SIGNATURE;
    hold_unwritten(buffer);
    hold(all_zero(&step->answer.begun, sizeof step->answer - offsetof(struct mortisevane_chain_answer, begun)),
        "fields told although refused");
    hold(step->answer.lost <= (closes ? 1 : 0), "lost told though no chain was closed");
    uint32_t closed = 0;
    for (int slot = 0; slot < MORTISEVANE_SLOTS; slot++) {
        if (same_chain(&before->slots[slot], &step->chains.slots[slot]))
            continue;
        hold(closes && is_blank(&step->chains.slots[slot]), "a record changed although refused");
        closed++;
    }
    hold(closed == step->answer.lost, "not as many chains were closed as are told lost");
}

static struct mortisevane_chain_step ask_step(struct mortisevane_chains chains, struct row buffer, uint32_t address,
    struct row words)
{
    struct mortisevane_chain_step step = CALL(chain_step, chains, to_write(buffer), buffer.length, address, to_read(words),
        words.length / 4);
    answered(step.answer.number);
    if (step.answer.number == 0)
        hold_joined(&step, buffer, address, words);
    else
        hold_refused(&chains, &step, buffer);
    return step;
}

/* All fragments of a message in their order, from fresh records: its text is handed out with the last. */
static void hold_handed_out(const struct message *message)
{
    struct mortisevane_chains chains = ask_fresh();
    struct row buffer = lend_row(&chain_memory, MORTISEVANE_CHAIN_BYTES);
    for (size_t fragment = 0; fragment < message->fragments; fragment++) {
        struct mortisevane_chain_step step = ask_step(chains, buffer, message->address, lend_fragment(message, fragment));
        hold(step.answer.number == 0, "a good fragment in its turn is refused");
        hold((step.answer.complete == 1) == (fragment + 1 == message->fragments), "the text is handed out at another time");
        chains = step.chains;
        if (step.answer.complete == 1)
            hold(step.answer.characters == message->characters
                    && memcmp((const uint8_t *)to_fill(buffer) + step.answer.place, message->text, message->characters) == 0,
                "another text is handed out");
    }
}

static struct row some_buffer(void)
{
    if (kept_buffer.memory == NULL || one_in(64))
        kept_buffer = lend_row(&chain_memory, MORTISEVANE_CHAIN_BYTES + (one_in(2) ? 0 : random_below(64)));
    if (!one_in(32))
        return kept_buffer;
    return lend_row(&chain_memory, random_length(MORTISEVANE_CHAIN_BYTES, MEMORY_BYTES));
}

/* A run of fragments, mostly of one message in their order and mostly good; or first ones alone, which fill the slots. */
void fuzz_chain_step(void)
{
    bool filling = one_in(16);
    struct message *message = some_message();
    if (message->fragments <= 16 && one_in(8)) {
        hold_handed_out(message);
        return;
    }
    for (uint64_t turn = filling ? 16 : random_between(1, 6); turn > 0; turn--) {
        if (filling)
            message = some_message();
        size_t fragment = one_in(8) ? random_below(message->fragments) : filling ? 0 : message->next;
        uint32_t address = one_in(32) ? (uint32_t)random_of_width(32) : message->address;
        struct row words = lend_some_fragment(message, fragment);
        struct mortisevane_chains chains = some_chains();
        struct mortisevane_chain_step step = ask_step(chains, some_buffer(), address, words);
        if (step.answer.number != MORTISEVANE_REFUSED_STATE)
            kept_chains = step.chains;
        message->next = (fragment + 1) % message->fragments;
    }
}

void fuzz_chain_drop(void)
{
    struct mortisevane_chains chains = some_chains();
    struct mortisevane_chain asked = one_in(2) ? some_chain() : chains.slots[random_below(MORTISEVANE_SLOTS)];
    if (one_in(8))
        random_flip(one_in(2) ? &asked.address : &asked.message_number, sizeof asked.address);
    struct mortisevane_chain_drop drop = CALL(chain_drop, chains, asked.address, asked.message_number);
    answered(drop.number);
    if (drop.number == 0) {
        size_t slot = slot_of(&chains, asked.address, asked.message_number);
        hold(slot < MORTISEVANE_SLOTS && is_blank(&drop.chains.slots[slot]), "a drop that closes no chain of its key");
        chains.slots[slot] = drop.chains.slots[slot];
        if (one_in(2))
            kept_chains = drop.chains;
    }
    hold(same_chains(&chains, &drop.chains), "a drop changes another record");
}
