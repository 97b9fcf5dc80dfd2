/*
 * Faults that the fuzzing must notice, for tools/fuzz --try-faults: each stands before an export of the library (the
 * linker's --wrap) and spoils its answer, or what was lent, where the environment's FAULT names it. Without a name every
 * export is as it was.
 */
#include <stdlib.h>
#include <string.h>

#include "mortisevane.h"

/* What a fault reads goes here, so that it is read. */
static volatile uint32_t read_there;

static int is_fault(const char *name)
{
    static const char *chosen;
    if (chosen == NULL)
        chosen = getenv("FAULT");
    return chosen != NULL && strcmp(chosen, name) == 0;
}

/* The export as the library has it, and the one that is called in its stead. */
#define STANDS_BEFORE(result, name, ...) \
    result __real_mortisevane_##name(__VA_ARGS__); \
    result __wrap_mortisevane_##name(__VA_ARGS__); \
    result __wrap_mortisevane_##name(__VA_ARGS__)

STANDS_BEFORE(uint32_t, sum_six_bit, const uint32_t *words, size_t words_length)
{
    if (is_fault("reads_a_word_after_the_row"))
        read_there = words[words_length];
    return __real_mortisevane_sum_six_bit(words, words_length);
}

STANDS_BEFORE(uint32_t, sum_signature, const uint8_t *characters, size_t characters_length)
{
    if (is_fault("reads_a_byte_before"))
        read_there = characters[-1];
    if (is_fault("reads_where_there_is_none") && characters_length == 0)
        read_there = characters[0];
    return __real_mortisevane_sum_signature(characters, characters_length);
}

STANDS_BEFORE(uint32_t, sum_ten_bit, const uint32_t *words, size_t words_length)
{
    if (is_fault("writes_what_is_lent_for_reading") && words_length > 0)
        *(volatile uint32_t *)(uintptr_t)words = words[0];
    return __real_mortisevane_sum_ten_bit(words, words_length);
}

STANDS_BEFORE(struct mortisevane_length, capcode_print, uint8_t letter, uint32_t frame, uint32_t collapse, uint64_t address,
    uint8_t *out, size_t out_length)
{
    struct mortisevane_length printed = __real_mortisevane_capcode_print(letter, frame, collapse, address, out, out_length);
    if (is_fault("writes_a_byte_after_the_row"))
        out[out_length] = 0;
    if (is_fault("writes_a_zero_after_the_text") && printed.number == 0 && printed.length < out_length)
        out[printed.length] = 0;
    return printed;
}

STANDS_BEFORE(struct mortisevane_capcode, capcode_read, const uint8_t *text, size_t text_length)
{
    struct mortisevane_capcode read = __real_mortisevane_capcode_read(text, text_length);
    if (is_fault("tells_the_place_one_late") && read.number == MORTISEVANE_REFUSED_DIGIT_AFTER_LETTER
        && read.place + 1u < text_length)
        read.place++;
    if (is_fault("tells_a_place_with_5") && read.number == MORTISEVANE_REFUSED_RANGE)
        read.place = (uint8_t)text_length;
    if (is_fault("tells_a_leading_4_by_19") && read.number == MORTISEVANE_REFUSED_LEADING_FOUR)
        read.number = MORTISEVANE_REFUSED_DIGIT_BEFORE_LETTER;
    return read;
}

STANDS_BEFORE(struct mortisevane_written, numeric_write, uint32_t set, const uint8_t *text, size_t text_length,
    uint32_t kind, struct mortisevane_numbering numbering, uint32_t *words, size_t words_length)
{
    uint8_t taken[MORTISEVANE_PAGE_CHARACTERS];
    if (is_fault("writes_in_a_set_that_is_neither"))
        set %= 2;
    if (is_fault("ignores_the_option_in_writing") && set == MORTISEVANE_SET_CHINESE)
        set = MORTISEVANE_SET_STANDARD;
    if (is_fault("takes_a_hyphen_with_the_option_on") && set == MORTISEVANE_SET_CHINESE && text_length <= sizeof taken) {
        for (size_t place = 0; place < text_length; place++)
            taken[place] = text[place] == '-' ? 'C' : text[place];
        text = taken;
    }
    return __real_mortisevane_numeric_write(set, text, text_length, kind, numbering, words, words_length);
}

static size_t count_spaces(const uint8_t *text, size_t length)
{
    size_t spaces = 0;
    for (size_t place = 0; place < length; place++)
        spaces += text[place] == ' ';
    return spaces;
}

STANDS_BEFORE(struct mortisevane_page_read, numeric_read, uint32_t set, uint32_t kind, uint32_t check,
    const uint32_t *words, size_t words_length, uint8_t *text, size_t text_length)
{
    if (is_fault("reads_in_a_set_that_is_neither"))
        set %= 2;
    if (is_fault("ignores_the_option_in_reading") && set == MORTISEVANE_SET_CHINESE)
        set = MORTISEVANE_SET_STANDARD;
    struct mortisevane_page_read read
        = __real_mortisevane_numeric_read(set, kind, check, words, words_length, text, text_length);
    if (is_fault("counts_spaces_anywhere"))
        read.spaces_at_end = count_spaces(text, read.characters);
    if (is_fault("counts_no_space_of_spaces_alone") && read.spaces_at_end == read.characters)
        read.spaces_at_end = 0;
    if (is_fault("tells_spaces_although_refused") && read.number == MORTISEVANE_REFUSED_ROOM)
        read.spaces_at_end = words_length;
    if (is_fault("writes_although_refused") && read.number == MORTISEVANE_REFUSED_CHECKSUM && text_length > 0)
        text[text_length - 1] ^= 1;
    if (is_fault("loses_the_first_zero") && read.characters > 0 && text[0] == '0')
        text[0] = ' ';
    return read;
}

STANDS_BEFORE(struct mortisevane_class, address_class, uint64_t address)
{
    struct mortisevane_class class = __real_mortisevane_address_class(address);
    if (is_fault("answers_27") && address == 0)
        class.number = 27;
    if (is_fault("answers_22") && address == 0)
        class.number = 22;
    return class;
}

STANDS_BEFORE(struct mortisevane_found, pair_address, uint32_t first, uint32_t second)
{
    uint32_t words[3] = { first, second };
    read_there = sizeof first + sizeof second;
    if (is_fault("copies_words_over_themselves"))
        memcpy(words + 1, words, read_there);
    return __real_mortisevane_pair_address(first, second);
}

STANDS_BEFORE(struct mortisevane_status_read, read_status, uint32_t packet)
{
    struct mortisevane_status_read read = __real_mortisevane_read_status(packet);
    if (is_fault("refuses_by_a_number_of_another_export") && read.number != 0)
        read.number = MORTISEVANE_REFUSED_ADDRESS;
    return read;
}

STANDS_BEFORE(struct mortisevane_control_read, read_control, uint32_t packet)
{
    struct mortisevane_control_read read = __real_mortisevane_read_control(packet);
    if (is_fault("tells_fields_although_refused") && read.number != 0)
        read.fields.on = packet & 1;
    return read;
}

STANDS_BEFORE(struct mortisevane_message_read, read_message, uint32_t packet)
{
    if (is_fault("accepts_nothing"))
        packet = UINT32_MAX;
    return __real_mortisevane_read_message(packet);
}

STANDS_BEFORE(struct mortisevane_assignment, capcode_assign, uint8_t letter, uint32_t frame, uint32_t collapse, uint64_t address)
{
    struct mortisevane_assignment assignment = __real_mortisevane_capcode_assign(letter, frame, collapse, address);
    if (is_fault("never_refuses_by_6") && assignment.number == MORTISEVANE_REFUSED_OFFSET)
        assignment.number = MORTISEVANE_REFUSED_RANGE;
    return assignment;
}

STANDS_BEFORE(struct mortisevane_built, mirror_closing, struct mortisevane_mirror mirror)
{
    struct mortisevane_built built = __real_mortisevane_mirror_closing(mirror);
    if (is_fault("closes_with_a_wrong_checksum") && built.number == 0)
        built.packet.bits ^= 0x800000;
    return built;
}

STANDS_BEFORE(struct mortisevane_text_cut, text_cut, const uint8_t *text, size_t text_length, struct mortisevane_marks marks,
    size_t largest, uint32_t *words, size_t words_length)
{
    struct mortisevane_text_cut cut = __real_mortisevane_text_cut(text, text_length, marks, largest, words, words_length);
    if (is_fault("writes_a_word_too_many") && cut.words < words_length && cut.number == 0)
        words[cut.words] = 0;
    return cut;
}

STANDS_BEFORE(struct mortisevane_chain_step, chain_step, struct mortisevane_chains chains, uint8_t *buffer,
    size_t buffer_length, uint32_t address, const uint32_t *words, size_t words_length)
{
    struct mortisevane_chain_step step
        = __real_mortisevane_chain_step(chains, buffer, buffer_length, address, words, words_length);
    if (is_fault("writes_into_another_slot") && step.answer.complete == 1)
        buffer[(step.answer.place + MORTISEVANE_TEXT_CHARACTERS) % MORTISEVANE_CHAIN_BYTES] ^= 1;
    if (is_fault("joins_although_full") && step.answer.number == MORTISEVANE_REFUSED_FULL)
        buffer[0] ^= 1;
    if (is_fault("changes_a_record_although_refused") && step.answer.number == MORTISEVANE_REFUSED_DAMAGED)
        step.chains.slots[7].sum ^= 1;
    return step;
}

STANDS_BEFORE(struct mortisevane_call_hearing, call_hear, struct mortisevane_calls calls, uint32_t *memory,
    size_t memory_length, uint32_t bits)
{
    struct mortisevane_call_hearing hearing = __real_mortisevane_call_hear(calls, memory, memory_length, bits);
    if (is_fault("writes_a_word_to_no_call") && hearing.answer.number == 0 && calls.size < MORTISEVANE_CALLS)
        memory[MORTISEVANE_CALL_WORDS - 1] ^= 1;
    if (is_fault("completes_a_call_too_soon") && hearing.answer.is_vector == 1)
        hearing.answer.completed |= 1u << hearing.answer.call;
    return hearing;
}

STANDS_BEFORE(struct mortisevane_frame_end, call_end, struct mortisevane_calls calls, const uint32_t *memory,
    size_t memory_length)
{
    struct mortisevane_frame_end end = __real_mortisevane_call_end(calls, memory, memory_length);
    if (is_fault("lists_the_calls_in_another_order") && end.incomplete.size >= 2) {
        end.incomplete.calls[0] = end.incomplete.calls[1];
        end.incomplete.calls[1] = calls.calls[0];
    }
    return end;
}

STANDS_BEFORE(uint32_t, pocsag_mend, uint32_t *words, size_t words_length, uint32_t *bits, size_t bits_length)
{
    if (is_fault("mends_with_too_few_places") && bits_length + 1 == words_length)
        words_length--;
    uint32_t first = words_length > 0 ? words[0] : 0;
    uint32_t number = __real_mortisevane_pocsag_mend(words, words_length, bits, bits_length);
    if (number != 0 || words_length == 0)
        return number;
    if (is_fault("mends_the_parity_bit") && bits[0] == MORTISEVANE_REFUSED_BEYOND_REPAIR) {
        words[0] ^= 1;
        bits[0] = 1;
    }
    if (is_fault("clears_a_word_beyond_repair") && bits[0] == MORTISEVANE_REFUSED_BEYOND_REPAIR)
        words[0] = 0;
    if (is_fault("tells_two_bits_as_one") && bits[0] == 2)
        bits[0] = 1;
    if (is_fault("mends_one_bit_at_most") && bits[0] == 2) {
        words[0] = first;
        bits[0] = MORTISEVANE_REFUSED_BEYOND_REPAIR;
    }
    if (is_fault("clears_the_places_after_the_words") && bits_length > words_length)
        bits[words_length] = 0;
    return number;
}

/* The 20 bits of a stored word in the other order. */
static uint32_t turned(uint32_t bits)
{
    uint32_t other = 0;
    for (int place = 0; place < 20; place++)
        other = other << 1 | (bits >> place & 1);
    return other;
}

/* Whether something is told of the last word that was taken. */
static int tells(const struct mortisevane_pocsag_heard *heard)
{
    return heard->number != 0 || heard->page.is_ended != 0;
}

STANDS_BEFORE(struct mortisevane_pocsag_heard, pocsag_hear, struct mortisevane_pocsag_reader reader,
    const uint32_t *words, size_t words_length, uint32_t *lent, size_t lent_length)
{
    struct mortisevane_pocsag_heard heard
        = __real_mortisevane_pocsag_hear(reader, words, words_length, lent, lent_length);
    if (is_fault("takes_words_after_one_that_tells") && tells(&heard) && heard.taken < words_length)
        heard.taken++;
    if (is_fault("takes_fewer_words_and_tells_nothing") && !tells(&heard) && heard.taken > 1)
        heard.taken--;
    if (is_fault("hands_out_a_page_that_was_not_heard") && heard.page.number == MORTISEVANE_REFUSED_NO_SYNC)
        heard.page.number = heard.page.words <= lent_length ? 0 : MORTISEVANE_REFUSED_TOO_LONG;
    if (is_fault("keeps_a_page_that_ended") && heard.page.is_ended != 0 && heard.reader.is_open == 0)
        heard.reader.address = heard.page.address;
    if (is_fault("forgets_the_frame_of_an_address") && heard.reader.is_open != 0 && heard.reader.words == 0)
        heard.reader.address &= ~(uint32_t)7;
    if (is_fault("awaits_17_words") && heard.reader.left == 16)
        heard.reader.left = 17;
    if (is_fault("stores_a_word_too_many") && heard.reader.is_open != 0 && heard.reader.words < lent_length)
        lent[heard.reader.words] = 0;
    if (is_fault("stores_a_word_of_21_bits") && heard.reader.words > reader.words && heard.reader.words <= lent_length)
        lent[heard.reader.words - 1] |= 1u << 20;
    if (is_fault("stores_words_as_they_are_sent") && heard.page.is_ended == 0 && heard.reader.is_open != 0)
        for (size_t place = reader.is_open != 0 ? reader.words : 0; place < heard.reader.words; place++)
            lent[place] = turned(lent[place]);
    if (is_fault("goes_on_without_a_sync_word") && heard.number == MORTISEVANE_REFUSED_NO_SYNC)
        heard.reader.left = 15;
    if (is_fault("tells_a_page_though_none_ended") && heard.page.is_ended == 0)
        heard.page.words = heard.reader.words;
    if (is_fault("changes_the_reader_by_no_word") && words_length == 0)
        heard.reader.mended++;
    return heard;
}

STANDS_BEFORE(struct mortisevane_pocsag_page, pocsag_close, struct mortisevane_pocsag_reader reader)
{
    struct mortisevane_pocsag_page page = __real_mortisevane_pocsag_close(reader);
    if (is_fault("hands_out_a_page_at_the_close") && page.number == MORTISEVANE_REFUSED_NO_SYNC)
        page.number = 0;
    if (is_fault("tells_a_long_page_at_the_close") && reader.fault == MORTISEVANE_REFUSED_TOO_LONG)
        page.number = MORTISEVANE_REFUSED_TOO_LONG;
    if (is_fault("closes_a_page_that_is_not_open") && reader.is_open == 0)
        page.address = reader.address;
    return page;
}

STANDS_BEFORE(struct mortisevane_pocsag_text, pocsag_read, uint32_t kind, const uint32_t *words, size_t words_length,
    uint8_t *text, size_t text_length)
{
    struct mortisevane_pocsag_text read
        = __real_mortisevane_pocsag_read(kind, words, words_length, text, text_length);
    if (is_fault("reads_a_kind_that_is_none") && kind == 3)
        read = __real_mortisevane_pocsag_read(2, words, words_length, text, text_length);
    if (is_fault("loses_the_first_zero_of_a_pocsag_page") && kind < 2 && read.characters > 0 && text[0] == '0')
        text[0] = ' ';
    if (is_fault("counts_no_eot_as_fill") && kind == 2 && read.fill_at_end > 0 && text[read.characters - 1] == 4)
        read.fill_at_end = 0;
    if (is_fault("counts_a_space_as_fill_of_a_text") && kind == 2 && read.characters > 0 && text[read.characters - 1] == ' ')
        read.fill_at_end = 1;
    if (is_fault("tells_1_before_10") && read.number == MORTISEVANE_REFUSED_DAMAGED && text_length < 5 * words_length)
        read.number = MORTISEVANE_REFUSED_ROOM;
    return read;
}

STANDS_BEFORE(struct mortisevane_frames, frames_listened, struct mortisevane_listeners listeners)
{
    if (is_fault("is_no_instruction"))
        __builtin_trap();
    return __real_mortisevane_frames_listened(listeners);
}

STANDS_BEFORE(struct mortisevane_wait, frames_wait, uint32_t from, uint32_t to)
{
    struct mortisevane_wait wait = __real_mortisevane_frames_wait(from, to);
    if (is_fault("awaits_the_present_frame_at_once") && wait.frames == 128)
        wait.frames = 0;
    return wait;
}

STANDS_BEFORE(struct mortisevane_mirrored, mirror_step, struct mortisevane_mirror mirror, uint32_t packet)
{
    while (is_fault("does_not_return"))
        read_there = packet;
    return __real_mortisevane_mirror_step(mirror, packet);
}
