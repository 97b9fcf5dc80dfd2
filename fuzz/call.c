/* Calls in a frame. */
#include "fuzz.h"

/* The words of a frame that a call may have, and how packets of the decoder are laid out (Tables 30, 31, 36 and 40). */
enum {
    LAST_WORD = MORTISEVANE_PACKET_LAST_WORD,
    AREA_WORDS = MORTISEVANE_CALL_WORDS / MORTISEVANE_CALLS,
    ONE_WORD = (1 << 21) - 1,
    DAMAGED = 1 << 23,
    PHASE_PLACE = 21,
    KIND_PLACE = 16,
    COUNT_PLACE = 7,
};

/* The records and the memory as the last answer left them. */
static struct mortisevane_calls kept_calls;
static struct row kept_memory;

static size_t open_in(const struct mortisevane_calls *calls)
{
    return calls->size < MORTISEVANE_CALLS ? calls->size : MORTISEVANE_CALLS;
}

static bool same_calls(const struct mortisevane_calls *left, const struct mortisevane_calls *right)
{
    return memcmp(left, right, sizeof *left) == 0;
}

static struct mortisevane_calls ask_fresh(void)
{
    struct mortisevane_calls calls = CALL(calls_fresh);
    answered(0);
    hold(all_zero(&calls, sizeof calls), "fresh records are not all zero");
    return calls;
}

void fuzz_calls_fresh(void)
{
    struct mortisevane_calls calls = ask_fresh();
    if (one_in(8))
        kept_calls = calls;
}

static size_t ask_place(struct mortisevane_call call)
{
    size_t place = CALL(call_place, call);
    answered(0);
    hold(place % AREA_WORDS == 0 && place < MORTISEVANE_CALL_WORDS, "no place of an area");
    return place;
}

void fuzz_call_place(void)
{
    struct mortisevane_call call;
    random_fill(&call, sizeof call);
    if (one_in(2))
        call.area &= 15;
    ask_place(call);
}

/* A call that may be: before its vector, or with one and a span that mostly fits. */
static struct mortisevane_call some_call(void)
{
    struct mortisevane_call call = { 0 };
    call.phase = (uint32_t)random_below(4);
    call.vector = (uint32_t)random_below(LAST_WORD - 8);
    call.address = (uint32_t)random_below(32);
    call.priority = (uint32_t)random_below(2);
    call.long_address = (uint32_t)random_below(2);
    call.has_vector = (uint32_t)random_below(3);
    if (call.has_vector == 0)
        return call;
    call.kind = (uint32_t)random_below(8);
    call.check = (uint32_t)random_below(16);
    call.words = (uint32_t)random_below(8);
    call.start = (uint32_t)random_between(call.vector + 2, LAST_WORD - 6);
    call.area = (uint32_t)random_below(one_in(4) ? 16 : MORTISEVANE_CALLS);
    return call;
}

/* The kept records, seldom damaged or random, or records that may be. */
static struct mortisevane_calls some_calls(void)
{
    struct mortisevane_calls calls = kept_calls;
    if (one_in(128)) {
        calls.size = random_below(MORTISEVANE_CALLS + 2);
        for (int place = 0; place < MORTISEVANE_CALLS; place++)
            calls.calls[place] = some_call();
    }
    if (one_in(64))
        random_flip(&calls.calls[random_below(MORTISEVANE_CALLS)], sizeof calls.calls[0]);
    if (one_in(64))
        random_flip(&calls.size, one_in(2) ? 1 : sizeof calls.size);
    if (one_in(64))
        random_fill(&calls, sizeof calls);
    return calls;
}

static struct row some_memory(void)
{
    if (kept_memory.memory == NULL || one_in(64))
        kept_memory = lend_row(&call_memory, 4 * (MORTISEVANE_CALL_WORDS + (one_in(2) ? 0 : random_below(64))));
    if (!one_in(32))
        return kept_memory;
    return lend_row(&call_memory, 4 * random_length(MORTISEVANE_CALL_WORDS, MEMORY_WORDS));
}

/* ---- Address packets ---- */

static uint32_t some_address_packet(void)
{
    uint32_t index = (uint32_t)random_below(16);
    if (one_in(2))
        index |= 0x80;
    if (one_in(32))
        index = (uint32_t)random_below(256);
    uint32_t flags = (uint32_t)random_below(16) << 20;
    uint32_t word = (uint32_t)random_between(0, LAST_WORD / 4);
    if (one_in(16))
        word = (uint32_t)random_below(256);
    uint32_t packet = (uint32_t)MORTISEVANE_PACKET_ADDRESS << 24 | flags | index << 8 | word;
    if (one_in(64))
        packet ^= 1u << random_below(32);
    return one_in(64) ? (uint32_t)random_bits() : packet;
}

/* What is told of an address packet is what its reader tells. */
static void hold_read(const struct mortisevane_call_opened *answer, uint32_t packet)
{
    struct mortisevane_address_read read = CALL(read_address, packet);
    answered(read.number);
    hold(answer->number != 0 || (read.number == 0 && memcmp(&read.fields, &answer->fields, sizeof read.fields) == 0),
        "the packet reads otherwise");
}

static struct mortisevane_call_opening ask_open(struct mortisevane_calls calls, uint32_t packet)
{
    struct mortisevane_call_opening opening = CALL(call_open, calls, packet);
    answered(opening.answer.number);
    hold_read(&opening.answer, packet);
    if (opening.answer.number != 0 || opening.answer.opened == 0) {
        hold(same_calls(&calls, &opening.calls), "records changed and no call opened");
        hold(opening.answer.call == 0, "the place of no call is told");
        hold(opening.answer.number == 0 || all_zero(&opening.answer.opened,
                 sizeof opening.answer - offsetof(struct mortisevane_call_opened, opened)),
            "fields told although refused");
        return opening;
    }
    size_t open = open_in(&calls);
    hold(open < MORTISEVANE_CALLS && opening.answer.call == open && opening.calls.size == open + 1,
        "the opened call is not the last one");
    const struct mortisevane_call *call = &opening.calls.calls[open];
    const struct mortisevane_address *fields = &opening.answer.fields;
    hold(call->phase == fields->phase && call->vector == fields->vector && call->address == fields->address
            && call->priority == fields->priority && call->long_address == fields->long_address && call->has_vector == 0,
        "the opened call is not the packet's");
    hold(memcmp(calls.calls, opening.calls.calls, open * sizeof *call) == 0, "an older call changed");
    return opening;
}

void fuzz_call_open(void)
{
    for (uint64_t turn = one_in(16) ? 12 : random_between(1, 3); turn > 0; turn--) {
        struct mortisevane_calls calls = some_calls();
        struct mortisevane_call_opening opening = ask_open(calls, some_address_packet());
        if (opening.answer.number != MORTISEVANE_REFUSED_STATE)
            kept_calls = opening.calls;
    }
}

/* ---- Vectors and words ---- */

/* The vector of a call, with a span that mostly fits and is mostly short. */
static uint32_t vector_of(const struct mortisevane_call *call)
{
    uint32_t count = (uint32_t)(one_in(8) ? random_below(LAST_WORD) : random_between(1, 4));
    uint32_t room = call->vector < LAST_WORD ? LAST_WORD - call->vector : 1;
    uint32_t begin = call->vector + 1 + (uint32_t)random_below(count < room ? room - count + 1 : room);
    uint32_t data = (count << COUNT_PLACE | (begin & 127)) & 0x3FFF;
    uint32_t kind = (uint32_t)(one_in(2) ? MORTISEVANE_VECTOR_ALPHANUMERIC : random_below(8));
    return (call->vector & 127) << 24 | (call->phase & 3) << PHASE_PLACE | kind << KIND_PLACE | data;
}

/* One of the words of a call: a long call's first stands right after the vector. */
static uint32_t word_of(const struct mortisevane_call *call)
{
    uint32_t place = call->words == 0 ? 0 : (uint32_t)random_below(call->words);
    uint32_t number = call->start + place;
    if (call->long_address != 0)
        number = place == 0 ? call->vector + 1 : call->start + place - 1;
    return (number & 127) << 24 | (call->phase & 3) << PHASE_PLACE | ((uint32_t)random_bits() & ONE_WORD);
}

static uint32_t some_heard_packet(const struct mortisevane_calls *calls)
{
    size_t open = open_in(calls);
    uint32_t packet = (uint32_t)random_below(LAST_WORD + 2) << 24;
    packet |= (uint32_t)(random_bits() >> 41);
    if (open > 0 && !one_in(16)) {
        const struct mortisevane_call *call = &calls->calls[random_below(open)];
        if (call->has_vector != 0 && call->words == 0)
            call = &calls->calls[random_below(open)];
        packet = call->has_vector == 0 || one_in(16) ? vector_of(call) : word_of(call);
    }
    if (one_in(32))
        packet |= DAMAGED;
    if (one_in(32))
        packet ^= 1u << random_below(32);
    return one_in(64) ? (uint32_t)random_bits() : packet;
}

/* A call's vector marks its words as not come, in its own area. */
static void hold_vector(const struct mortisevane_calls *before, const struct mortisevane_call_hearing *hearing,
    struct row memory, uint32_t packet)
{
    struct mortisevane_vector_read read = CALL(read_vector, packet);
    answered(read.number);
    hold(read.number == 0 && read.fields.damaged == 0 && read.fields.kind == hearing->answer.kind
            && read.fields.span.check == hearing->answer.check,
        "the packet reads otherwise");
    hold(hearing->answer.call < open_in(&hearing->calls) && open_in(before) == open_in(&hearing->calls), "a vector of no call");
    const struct mortisevane_call *call = &hearing->calls.calls[hearing->answer.call];
    hold(call->has_vector != 0 && call->kind == read.fields.kind && call->check == read.fields.span.check
            && call->words == read.fields.span.words && call->words <= AREA_WORDS,
        "the call has not the vector that is told");
    size_t place = ask_place(*call);
    hold_written_only(memory, 4 * place, 4 * call->words);
    const uint32_t *words = to_fill(memory);
    for (size_t word = 0; word < call->words; word++)
        hold(words[place + word] > ONE_WORD, "a word has come before its packet");
    struct mortisevane_calls others = hearing->calls;
    others.calls[hearing->answer.call] = before->calls[hearing->answer.call];
    others.size = before->size;
    hold(same_calls(&others, before), "a vector changes another call");
}

/* Whether a word of the memory belongs to one of the open calls. */
static bool is_of_a_call(const struct mortisevane_calls *calls, size_t word)
{
    bool belongs = false;
    for (size_t open = open_in(calls); open > 0; open--) {
        const struct mortisevane_call *call = &calls->calls[open - 1];
        size_t place = (size_t)AREA_WORDS * (call->area % MORTISEVANE_CALLS);
        belongs = belongs || (call->has_vector != 0 && word >= place && word - place < call->words);
    }
    return belongs;
}

/* A message word is written to at most one place of each call, among the call's words. */
static void hold_word(const struct mortisevane_calls *before, const struct mortisevane_call_hearing *hearing,
    struct row memory, uint32_t packet)
{
    hold(same_calls(before, &hearing->calls), "a word changes a record");
    const uint32_t *was = as_before(memory);
    const uint32_t *is = to_fill(memory);
    size_t written = 0;
    for (size_t area = 0; area < MORTISEVANE_CALL_WORDS; area += AREA_WORDS) {
        if (memcmp(was + area, is + area, 4 * AREA_WORDS) == 0)
            continue;
        for (size_t word = area; word < area + AREA_WORDS; word++) {
            if (was[word] == is[word])
                continue;
            written++;
            hold(is[word] == (packet & ONE_WORD) && is_of_a_call(before, word), "written is not the word, or to no call");
        }
    }
    hold(written <= open_in(before), "a word is written more often than there are calls");
    hold_written_only(memory, 0, 4 * MORTISEVANE_CALL_WORDS);
}

/* Of a call that is told complete all words have come. */
static void hold_completed(const struct mortisevane_call_hearing *hearing, struct row memory)
{
    size_t open = open_in(&hearing->calls);
    hold(hearing->answer.completed >> open == 0, "a call is told complete that is not open");
    for (size_t completed = 0; completed < open; completed++) {
        if ((hearing->answer.completed >> completed & 1) == 0)
            continue;
        const struct mortisevane_call *call = &hearing->calls.calls[completed];
        const uint32_t *words = (const uint32_t *)to_fill(memory) + ask_place(*call);
        for (uint32_t word = 0; word < call->words; word++)
            hold(words[word] <= ONE_WORD, "a call is told complete that lacks a word");
    }
}

static struct mortisevane_call_hearing ask_hear(struct mortisevane_calls calls, struct row memory, uint32_t packet)
{
    struct mortisevane_call_hearing hearing = CALL(call_hear, calls, to_write(memory), memory.length / 4, packet);
    answered(hearing.answer.number);
    if (hearing.answer.number == 0) {
        hold(memory.length >= 4 * MORTISEVANE_CALL_WORDS, "accepted with less memory than calls are to be lent");
        if (hearing.answer.is_vector != 0)
            hold_vector(&calls, &hearing, memory, packet);
        else
            hold_word(&calls, &hearing, memory, packet);
        hold_completed(&hearing, memory);
        return hearing;
    }
    hold_unwritten(memory);
    hold((hearing.answer.is_vector | hearing.answer.call | hearing.answer.kind | hearing.answer.check
             | hearing.answer.completed) == 0,
        "fields told although refused");
    if (hearing.answer.number == MORTISEVANE_REFUSED_SIZE)
        hold(hearing.calls.size + 1 == open_in(&calls), "a bad span does not close its call");
    else
        hold(same_calls(&calls, &hearing.calls), "records changed although refused");
    return hearing;
}

/* ---- The end of a frame ---- */

/* The memory is lent for reading. What is listed are open calls in their order. */
void fuzz_call_end(void)
{
    struct mortisevane_calls calls = some_calls();
    struct row memory = some_memory();
    struct mortisevane_frame_end end = CALL(call_end, calls, to_read(memory), memory.length / 4);
    answered(end.number);
    hold_unwritten(memory);
    if (end.number != 0) {
        hold(same_calls(&calls, &end.calls), "records changed although refused");
        hold(all_zero(&end.incomplete, sizeof end.incomplete), "calls are told incomplete although refused");
        return;
    }
    hold(all_zero(&end.calls, sizeof end.calls), "the records are not fresh after a frame");
    hold(end.incomplete.size <= open_in(&calls), "more calls are incomplete than were open");
    size_t looked_at = 0;
    for (size_t listed = 0; listed < end.incomplete.size; listed++, looked_at++) {
        const struct mortisevane_call *call = &end.incomplete.calls[listed];
        while (looked_at < open_in(&calls) && memcmp(call, &calls.calls[looked_at], sizeof *call) != 0)
            looked_at++;
        hold(looked_at < open_in(&calls), "a call is listed that was not open, or not in the order opened");
    }
    if (one_in(2))
        kept_calls = end.calls;
}

/* ---- Vectors and words, mostly of a frame that is new ---- */

void fuzz_call_hear(void)
{
    if (one_in(2))
        fuzz_call_end();
    if (kept_calls.size == 0 || one_in(4))
        fuzz_call_open();
    for (uint64_t turn = random_between(1, 16); turn > 0; turn--) {
        struct mortisevane_calls calls = some_calls();
        struct row memory = some_memory();
        struct mortisevane_call_hearing hearing = ask_hear(calls, memory, some_heard_packet(&calls));
        if (hearing.answer.number != MORTISEVANE_REFUSED_STATE)
            kept_calls = hearing.calls;
    }
}
