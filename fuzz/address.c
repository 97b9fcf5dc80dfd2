/* Addresses and their words, CAPCODEs, frames. */
#include <inttypes.h>
#include <stdio.h>

#include "fuzz.h"

enum { WORD_BITS = 21 };

/* ---- Addresses ---- */

/* Both ends of Table 22's rows; an address near one of them is as likely as any number. */
static const uint64_t range_ends[] = { 1, 1933312, 1998848, 2009088, 2025471, 2029567, 2029584, 2029599, 2031614, 2101249,
    102101250, 402101250, 1075843072, 2149584896, 3223326720, 3923326750, 4280000000, 4285000000, 4290000000, 4291000000,
    4297068542, 9999999999 };

static uint64_t some_address(void)
{
    uint64_t end;
    switch (random_below(4)) {
    case 0:
        return random_of_width(64);
    case 1:
        end = range_ends[random_below(sizeof range_ends / sizeof *range_ends)];
        return end + random_below(5) - 2;
    case 2:
        return random_between(1, 2031614);
    default:
        return random_below(4400000000);
    }
}

static struct mortisevane_words ask_words(uint64_t address)
{
    struct mortisevane_words words = CALL(address_words, address);
    answered(words.number);
    hold(words.number == 0 || (words.count | words.first | words.second) == 0, "fields told although refused");
    return words;
}

static struct mortisevane_found ask_word(uint32_t word)
{
    struct mortisevane_found found = CALL(word_address, word);
    answered(found.number);
    hold(found.number == 0 || found.address == 0, "an address told although refused");
    return found;
}

static struct mortisevane_found ask_pair(uint32_t first, uint32_t second)
{
    struct mortisevane_found found = CALL(pair_address, first, second);
    answered(found.number);
    hold(found.number == 0 || found.address == 0, "an address told although refused");
    return found;
}

void fuzz_address_class(void)
{
    uint64_t address = some_address();
    struct mortisevane_class class = CALL(address_class, address);
    answered(class.number);
    hold(class.number == 0 ? class.address_class >= MORTISEVANE_CLASS_SHORT
                && class.address_class <= MORTISEVANE_CLASS_SET_23_INFORMATION_SERVICE
                           : class.address_class == 0,
        "no class");
    struct mortisevane_words words = ask_words(address);
    hold(words.number == class.number, "a class without words, or words without a class");
}

void fuzz_address_words(void)
{
    uint64_t address = some_address();
    struct mortisevane_words words = ask_words(address);
    if (words.number != 0)
        return;
    hold(words.count == 1 || words.count == 2, "neither one word nor two");
    hold(words.first >> WORD_BITS == 0 && words.second >> WORD_BITS == 0, "a word over 21 bits");
    hold(words.count == 2 || words.second == 0, "a second word of a short address");
    struct mortisevane_found found = words.count == 1 ? ask_word(words.first) : ask_pair(words.first, words.second);
    hold(found.number == 0 && found.address == address, "the words do not lead back to their address");
}

/* One of the words of an address with a bit changed or none, or any word. */
static struct mortisevane_words some_words(void)
{
    struct mortisevane_words words = ask_words(some_address());
    if (words.number != 0 || one_in(8)) {
        words.first = (uint32_t)random_of_width(one_in(2) ? WORD_BITS : 32);
        words.second = (uint32_t)random_of_width(one_in(2) ? WORD_BITS : 32);
    } else if (one_in(4)) {
        random_flip(one_in(2) ? &words.first : &words.second, sizeof words.first);
    }
    return words;
}

void fuzz_word_address(void)
{
    uint32_t word = some_words().first;
    struct mortisevane_found found = ask_word(word);
    if (found.number != 0)
        return;
    struct mortisevane_words words = ask_words(found.address);
    hold(words.number == 0 && words.count == 1 && words.first == word, "the address does not lead back to its word");
}

void fuzz_pair_address(void)
{
    struct mortisevane_words asked = some_words();
    struct mortisevane_found found = ask_pair(asked.first, asked.second);
    if (found.number != 0)
        return;
    struct mortisevane_words words = ask_words(found.address);
    hold(words.number == 0 && words.count == 2 && words.first == asked.first && words.second == asked.second,
        "the address does not lead back to its words");
}

/* ---- CAPCODEs ---- */

/* Letter, frame, collapse and address, as mostly belong together. */
static struct mortisevane_capcode some_capcode(void)
{
    struct mortisevane_capcode capcode = { .address = some_address() };
    if (one_in(4)) {
        capcode.letter = (uint8_t)random_bits();
        capcode.frame = (uint32_t)random_bits();
        capcode.collapse = (uint32_t)random_bits();
        return capcode;
    }
    capcode.letter = (uint8_t)random_between('A', one_in(4) ? 'Z' : 'H');
    if (capcode.letter >= 'U')
        capcode.frame = (uint32_t)random_below(130);
    capcode.collapse = (uint32_t)random_below(one_in(8) ? 8 : 6);
    if (one_in(16))
        capcode.address = random_below(4);
    return capcode;
}

static struct mortisevane_assignment ask_assignment(struct mortisevane_capcode capcode)
{
    struct mortisevane_assignment assignment = CALL(capcode_assign, capcode.letter, capcode.frame, capcode.collapse,
        capcode.address);
    answered(assignment.number);
    hold(assignment.number == 0 || (assignment.phase | assignment.base) == 0, "fields told although refused");
    hold(assignment.phase <= 4 && assignment.base <= 127, "no phase or no frame");
    return assignment;
}

/* Prints into the row and gives how many bytes, or 0. */
static size_t ask_print(struct mortisevane_capcode capcode, struct row out)
{
    struct mortisevane_length printed = CALL(capcode_print, capcode.letter, capcode.frame, capcode.collapse,
        capcode.address, to_write(out), out.length);
    answered(printed.number);
    hold_written_only(out, 0, printed.length);
    hold((printed.number == 0) == (printed.length > 0), "a length told although refused, or none");
    hold(printed.length <= MORTISEVANE_CAPCODE_BYTES, "longer than a CAPCODE can be");
    hold_room(printed.number, out.length, MORTISEVANE_CAPCODE_BYTES);
    return printed.length;
}

static bool is_digit(uint8_t byte)
{
    return byte >= '0' && byte <= '9';
}

/* Whether the number says that a text is not in the form; a place is told beside it. */
static bool goes_wrong(uint32_t number)
{
    return number == MORTISEVANE_REFUSED_TEXT || number >= MORTISEVANE_REFUSED_DIGIT_BEFORE_LETTER;
}

/* The number is that of the byte at the place where a text goes wrong. */
static void hold_place(struct row text, uint32_t number, size_t place)
{
    const uint8_t *bytes = to_read(text);
    hold(place <= MORTISEVANE_CAPCODE_BYTES && place <= text.length, "a place that no CAPCODE has, or not this text");
    bool letter_before = false;
    for (size_t before = 0; before < place; before++)
        letter_before = letter_before || !is_digit(bytes[before]);
    uint32_t right = MORTISEVANE_REFUSED_TEXT;
    if (place == text.length)
        right = MORTISEVANE_REFUSED_DIGIT_AFTER_LETTER;
    else if (is_digit(bytes[place]))
        right = letter_before ? MORTISEVANE_REFUSED_DIGIT_AFTER_LETTER : MORTISEVANE_REFUSED_DIGIT_BEFORE_LETTER;
    if (text.length > 0 && bytes[0] == '4')
        right = MORTISEVANE_REFUSED_LEADING_FOUR;
    hold(number == right, "not the number of the byte at the place");
    hold(number != MORTISEVANE_REFUSED_LEADING_FOUR || place == 0, "a leading 4 at another place than 0");
}

static struct mortisevane_capcode ask_capcode(struct row text)
{
    struct mortisevane_capcode capcode = CALL(capcode_read, to_read(text), text.length);
    answered(capcode.number);
    hold(capcode.number == 0
            || (capcode.letter | capcode.frame | capcode.collapse | capcode.phase | capcode.base | capcode.address) == 0,
        "fields told although refused");
    if (goes_wrong(capcode.number))
        hold_place(text, capcode.number, capcode.place);
    else
        hold(capcode.place == 0, "a place told of a text in the form");
    return capcode;
}

/* What stands before the place where a text goes wrong is in the form, or only stops too soon. */
static void hold_beginning(struct row text, size_t place)
{
    uint8_t beginning[MORTISEVANE_CAPCODE_BYTES];
    memcpy(beginning, to_fill(text), place);
    struct mortisevane_capcode read = ask_capcode(lend_copy(beginning, place));
    hold(!goes_wrong(read.number) || read.place == place, "the text goes wrong before the place");
}

/* A text in the form, of any letter and address, so that what it says may still be refused; with its length. */
static size_t form_capcode(char text[64])
{
    char letter = (char)(one_in(2) ? random_between('A', 'L') : random_between('U', 'Z'));
    unsigned collapse = (unsigned)random_below(6);
    uint64_t address = one_in(4) ? random_below(4) : some_address() % 10000000000;
    int length = 0;
    if (letter >= 'U')
        length = snprintf(text, 64, "%03u%u", (unsigned)random_below(128), collapse);
    else if (collapse != 4)
        length = snprintf(text, 64, "%u", collapse);
    length += snprintf(text + length, 64 - (size_t)length, "%c%0*" PRIu64, letter, address <= 2031614 ? 7 : 10, address);
    return (size_t)length;
}

/*
 * A text that was printed, one in the form, or characters of the form in any order; perhaps changed a little, now and then
 * at its start, to a 4.
 */
static struct row lend_some_capcode(void)
{
    static const char signs[] = "0123456789ABCDEFGHIUVWXYZ";
    char text[64];
    size_t length;
    if (one_in(3)) {
        struct row out = lend_row(&write_memory, MORTISEVANE_CAPCODE_BYTES);
        length = ask_print(some_capcode(), out);
        memcpy(text, to_fill(out), length);
    } else if (!one_in(8)) {
        length = form_capcode(text);
    } else {
        length = random_length(MORTISEVANE_CAPCODE_BYTES, sizeof text - 1);
        for (size_t place = 0; place < length; place++)
            text[place] = signs[random_below(place == 0 || place == 4 ? sizeof signs - 1 : 10)];
    }
    if (length > 0 && one_in(8))
        random_flip(text, length);
    else if (length > 0 && one_in(32))
        text[0] = '4';
    if (one_in(16))
        text[length++] = (char)random_bits();
    else if (length > 0 && one_in(16))
        length--;
    return one_in(16) ? lend_long_copy(text, length) : lend_copy(text, length);
}

void fuzz_capcode_read(void)
{
    struct row text = one_in(8) ? lend_row(&read_memory, random_length(16, MEMORY_BYTES)) : lend_some_capcode();
    if (one_in(64))
        random_fill(to_fill(text), text.length);
    struct mortisevane_capcode capcode = ask_capcode(text);
    if (goes_wrong(capcode.number))
        hold_beginning(text, capcode.place);
    if (capcode.number != 0)
        return;
    struct mortisevane_assignment assignment = ask_assignment(capcode);
    hold(assignment.number == 0 && assignment.phase == capcode.phase && assignment.base == capcode.base,
        "the value is assigned otherwise than the text");
    struct row out = lend_row(&write_memory, MORTISEVANE_CAPCODE_BYTES);
    size_t length = ask_print(capcode, out);
    hold(length == text.length && memcmp(to_fill(out), to_read(text), length) == 0, "the value prints as another text");
}

void fuzz_capcode_assign(void)
{
    ask_assignment(some_capcode());
}

void fuzz_capcode_print(void)
{
    struct mortisevane_capcode printed = some_capcode();
    struct row out = lend_row(&write_memory, random_length(MORTISEVANE_CAPCODE_BYTES, MEMORY_BYTES));
    size_t length = ask_print(printed, out);
    if (length == 0)
        return;
    struct mortisevane_capcode read = ask_capcode(lend_copy(to_fill(out), length));
    hold(read.number == 0 && read.letter == printed.letter && read.frame == printed.frame
            && read.collapse == printed.collapse && read.address == printed.address,
        "the text reads as another value");
}

/* ---- Frames ---- */

/* A frame, or a number that eight bits might cut to one. */
static uint32_t some_frame(void)
{
    return one_in(4) ? (uint32_t)random_bits() : (uint32_t)random_below(512);
}

/* The designated frame is the present one often enough to show its own rule. */
void fuzz_frames_wait(void)
{
    uint32_t from = some_frame();
    uint32_t to = one_in(8) ? from : some_frame();
    struct mortisevane_wait wait = CALL(frames_wait, from, to);
    answered(wait.number);
    hold((wait.number == 0) == (from <= 127 && to <= 127), "a frame over 127 taken, or another refused");
    if (wait.number == 0)
        hold(wait.frames >= 1 && wait.frames <= 128 && (from + wait.frames) % 128 == to,
            "the wait does not lead to where the frame comes next");
    else
        hold(wait.frames == 0, "a refused wait has frames");
}

void fuzz_frames_listened(void)
{
    struct mortisevane_listeners listeners;
    random_fill(&listeners, sizeof listeners);
    if (!one_in(8)) {
        listeners.count = (uint32_t)random_below(19);
        for (int place = 0; place < 16; place++) {
            listeners.listeners[place].frame &= 127;
            listeners.listeners[place].collapse %= one_in(64) ? 8 : 6;
        }
    }
    struct mortisevane_frames frames = CALL(frames_listened, listeners);
    answered(frames.number);
    hold(frames.number == 0 || all_zero(&frames.count, sizeof frames - sizeof frames.number), "frames told although refused");
    uint32_t marked = 0;
    for (int packet = 0; packet < 8; packet++)
        for (int bit = 0; bit < 16; bit++)
            marked += frames.masks[packet] >> bit & 1;
    hold(marked == frames.count, "the count is not that of the marked frames");
}
