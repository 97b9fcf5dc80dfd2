/* The sums of messages, numeric pages, fragments; and the messages that the chains are given. */
#include "fuzz.h"

/* K takes the ten lowest bits of a fragment's first word, two of a page's. ETX is fill and never text. */
enum { WORD_BITS = 21, ONE_WORD = (1 << WORD_BITS) - 1, FRAGMENT_CHECK = 0x3FF, PAGE_CHECK = 3, ETX = 3 };

struct row lend_some_words(size_t usual)
{
    size_t count = random_length(usual, MEMORY_WORDS);
    struct row words = lend_row(&read_memory, 4 * count);
    uint32_t *filled = to_fill(words);
    uint64_t kind = random_below(4);
    if (kind == 0)
        return words;
    random_fill(filled, words.length);
    for (size_t place = 0; kind > 1 && place < count; place++)
        filled[place] &= kind == 2 ? ONE_WORD : 0xFF;
    return words;
}

/* ---- Sums ---- */

static uint32_t ask_ten_bit(struct row words)
{
    uint32_t sum = CALL(sum_ten_bit, to_read(words), words.length / 4);
    answered(0);
    hold(sum <= FRAGMENT_CHECK, "a sum of more than ten bits");
    return sum;
}

static uint32_t ask_six_bit(struct row words)
{
    uint32_t sum = CALL(sum_six_bit, to_read(words), words.length / 4);
    answered(0);
    hold(sum <= 63, "a sum of more than six bits");
    return sum;
}

/* Changes bits of the first word, where there is one, that a sum takes as 0. */
static void change_check(struct row words, uint32_t check)
{
    if (words.length > 0)
        *(uint32_t *)to_fill(words) ^= (uint32_t)random_bits() & check;
}

void fuzz_sum_six_bit(void)
{
    struct row words = lend_some_words(MORTISEVANE_PAGE_WORDS);
    uint32_t sum = ask_six_bit(words);
    change_check(words, PAGE_CHECK);
    hold(ask_six_bit(words) == sum, "K is part of its own sum");
}

void fuzz_sum_ten_bit(void)
{
    struct row words = lend_some_words(MORTISEVANE_FRAGMENT_WORDS);
    uint32_t sum = ask_ten_bit(words);
    change_check(words, FRAGMENT_CHECK);
    hold(ask_ten_bit(words) == sum, "K is part of its own sum");
}

/* The seven lowest bits of the 1's complement of the sum (Table 44), so both together are 127 modulo 128. */
void fuzz_sum_signature(void)
{
    struct row text = lend_row(&read_memory, random_length(64, MEMORY_BYTES));
    if (one_in(2))
        random_fill(to_fill(text), text.length);
    const uint8_t *characters = to_read(text);
    uint32_t signature = CALL(sum_signature, characters, text.length);
    answered(0);
    hold(signature <= 127, "a signature of more than seven bits");
    uint32_t sum = signature;
    for (size_t place = 0; place < text.length; place++)
        sum += characters[place];
    hold(sum % 128 == 127, "the signature is not the complement of the sum");
}

/* ---- Numeric pages ---- */

/* Table 39 with the option off and with it on, each character at the place of its code. */
enum { SETS = 2, SET_CHARACTERS = 16 };
static const char sets[SETS][SET_CHARACTERS + 1] = { "0123456789?U -][", "0123456789AB CDE" };

/* One of the two sets; now and then any number, which mostly chooses neither. */
static uint32_t some_set(void)
{
    return (uint32_t)(one_in(32) ? random_of_width(32) : random_below(SETS));
}

/* Whether every character is one of the set. */
static bool all_in_set(uint32_t set, const uint8_t *text, size_t length)
{
    size_t place = 0;
    while (place < length && memchr(sets[set], text[place], SET_CHARACTERS) != NULL)
        place++;
    return place == length;
}

/* How many spaces stand after the last character that is none. */
static size_t spaces_after_others(const uint8_t *text, size_t length)
{
    size_t spaces_from = 0;
    for (size_t place = 0; place < length; place++)
        if (text[place] != ' ')
            spaces_from = place + 1;
    return length - spaces_from;
}

static bool same_numbering(struct mortisevane_numbering left, struct mortisevane_numbering right)
{
    return memcmp(&left, &right, sizeof left) == 0;
}

static uint32_t some_kind(void)
{
    static const uint32_t kinds[] = { MORTISEVANE_VECTOR_STANDARD, MORTISEVANE_VECTOR_SPECIAL, MORTISEVANE_VECTOR_NUMBERED };
    return one_in(16) ? (uint32_t)random_of_width(32) : kinds[random_below(3)];
}

static struct mortisevane_numbering some_numbering(uint32_t kind)
{
    struct mortisevane_numbering numbering = { 0 };
    if (kind == MORTISEVANE_VECTOR_NUMBERED || one_in(32)) {
        numbering.message_number = (uint32_t)random_below(64);
        numbering.retrieval = (uint32_t)random_below(2);
        numbering.special_format = (uint32_t)random_below(2);
    }
    if (one_in(64))
        random_flip(&numbering, sizeof numbering);
    return numbering;
}

/*
 * Characters of the set up to a page's and more, sometimes with nothing but spaces from a place on; now and then one of
 * the other set's among them, or a bit changed. Or any bytes.
 */
static struct row lend_some_digits(uint32_t set)
{
    size_t most = one_in(16) ? MEMORY_BYTES : MORTISEVANE_PAGE_CHARACTERS + 8;
    struct row text = lend_row(&read_memory, random_length(MORTISEVANE_PAGE_CHARACTERS, most));
    uint8_t *filled = to_fill(text);
    if (one_in(8))
        return text;
    const char *own = sets[set % SETS], *other = sets[(set + 1) % SETS];
    for (size_t place = 0; place < text.length; place++)
        filled[place] = (uint8_t)own[random_below(SET_CHARACTERS)];
    size_t spaces = one_in(4) ? random_between(0, text.length) : 0;
    if (one_in(16))
        spaces = text.length;
    memset(filled + text.length - spaces, ' ', spaces);
    if (text.length > 0 && one_in(8)) {
        uint8_t *changed = filled + random_below(text.length);
        *changed = (uint8_t)other[random_below(SET_CHARACTERS)];
    }
    if (text.length > 0 && one_in(16))
        random_flip(filled, text.length);
    return text;
}

/* A set that is neither is refused with 7 before anything else is asked. */
static void hold_set(uint32_t number, uint32_t set)
{
    hold(set < SETS || number == MORTISEVANE_REFUSED_PACKET, "a set that is neither is not refused with 7");
}

/* What is written has only characters of the set, and what is refused with 18 has another. */
static void hold_taken(uint32_t number, uint32_t set, struct row text)
{
    if (number == 0)
        hold(all_in_set(set, to_read(text), text.length), "a character that is not in the set is taken");
    if (number == MORTISEVANE_REFUSED_CHARACTER)
        hold(!all_in_set(set, to_read(text), text.length), "a character of the set is refused");
}

static struct mortisevane_written ask_write(uint32_t set, struct row text, uint32_t kind,
    struct mortisevane_numbering numbering, struct row words)
{
    struct mortisevane_written written = CALL(numeric_write, set, to_read(text), text.length, kind, numbering,
        to_write(words), words.length / 4);
    answered(written.number);
    hold_set(written.number, set);
    hold_taken(written.number, set, text);
    hold_written_only(words, 0, 4 * written.words);
    hold(written.number == 0 || written.check == 0, "K told although refused");
    hold((written.number == 0) == (written.words > 0), "words told although refused, or none");
    hold(written.words <= MORTISEVANE_PAGE_WORDS && written.check <= 15, "more than a page");
    hold_room(written.number, words.length / 4, MORTISEVANE_PAGE_WORDS);
    return written;
}

/* What is read has only characters of the set, and the spaces that are told stand at its end. */
static void hold_read(struct mortisevane_page_read read, uint32_t set, const uint8_t *characters)
{
    hold(read.characters <= MORTISEVANE_PAGE_CHARACTERS, "more than a page");
    hold(all_in_set(set, characters, read.characters), "a character that is not in the set is read");
    hold(read.spaces_at_end == spaces_after_others(characters, read.characters), "the spaces told are not those at the end");
}

static struct mortisevane_page_read ask_page(uint32_t set, uint32_t kind, uint32_t check, struct row words, struct row text)
{
    struct mortisevane_page_read read = CALL(numeric_read, set, kind, check, to_read(words), words.length / 4,
        to_write(text), text.length);
    answered(read.number);
    hold_set(read.number, set);
    hold_written_only(text, 0, read.characters);
    if (read.number == 0)
        hold_read(read, set, to_fill(text));
    else
        hold(read.characters == 0 && read.spaces_at_end == 0 && all_zero(&read.numbering, sizeof read.numbering),
            "fields told although refused");
    hold_room(read.number, text.length, MORTISEVANE_PAGE_CHARACTERS);
    return read;
}

void fuzz_numeric_write(void)
{
    uint8_t sent[MORTISEVANE_PAGE_CHARACTERS];
    uint32_t set = some_set();
    uint32_t kind = some_kind();
    struct mortisevane_numbering numbering = some_numbering(kind);
    struct row text = lend_some_digits(set);
    struct row words = lend_row(&write_memory, 4 * random_length(MORTISEVANE_PAGE_WORDS, MEMORY_WORDS));
    struct mortisevane_written written = ask_write(set, text, kind, numbering, words);
    if (written.number != 0)
        return;
    hold(text.length <= sizeof sent, "a text longer than a page taken");
    memcpy(sent, to_read(text), text.length);
    struct row page = lend_copy(to_fill(words), 4 * written.words);
    struct row out = lend_row(&write_memory, MORTISEVANE_PAGE_CHARACTERS);
    struct mortisevane_page_read read = ask_page(set, kind, written.check, page, out);
    hold(read.number == 0 && same_numbering(read.numbering, numbering), "written and read are not the same");
    const uint8_t *characters = to_fill(out);
    hold(read.characters >= text.length && memcmp(characters, sent, text.length) == 0, "written and read as another text");
    for (size_t place = text.length; place < read.characters; place++)
        hold(characters[place] == ' ', "no space after the text");
}

/* The words of a page that was written, changed by a bit or not, or any words, with K of them or any. */
void fuzz_numeric_read(void)
{
    uint32_t set = some_set();
    uint32_t kind = some_kind();
    struct row made = lend_row(&write_memory, 4 * MORTISEVANE_PAGE_WORDS);
    struct row digits = lend_some_digits(set);
    struct mortisevane_written written = ask_write(set, digits, kind, some_numbering(kind), made);
    uint32_t check = one_in(16) ? (uint32_t)random_of_width(32) : written.check;
    struct row words = one_in(4) ? lend_some_words(MORTISEVANE_PAGE_WORDS) : lend_copy(to_fill(made), 4 * written.words);
    if (words.length > 0 && one_in(4)) {
        random_flip(to_fill(words), words.length);
        uint32_t sum = ask_six_bit(words);
        uint32_t *first = to_fill(words);
        if (one_in(2)) {
            check = sum & 15;
            *first = (*first & ~(uint32_t)PAGE_CHECK) | sum >> 4;
        }
    }
    struct row text = lend_row(&write_memory, random_length(MORTISEVANE_PAGE_CHARACTERS, MEMORY_BYTES));
    if (one_in(16))
        kind = some_kind();
    if (one_in(4))
        set = some_set();
    ask_page(set, kind, check, words, text);
}

/* ---- Fragments ---- */

static struct mortisevane_fragment_read ask_heading(struct row words)
{
    struct mortisevane_fragment_read read = CALL(fragment_heading, to_read(words), words.length / 4);
    answered(read.number);
    hold(read.number == 0 || all_zero(&read.continued, sizeof read - sizeof read.number), "fields told although refused");
    hold(read.continued <= 1 && read.fragment_number <= 3 && read.message_number <= 63 && read.retrieval <= 1
            && read.mail_drop <= 1 && read.signature <= 127 && read.sum <= 127
            && read.characters <= MORTISEVANE_FRAGMENT_CHARACTERS,
        "a field over its width");
    return read;
}

/* Reads with its text, which is held to the heading. */
static struct mortisevane_fragment_read ask_fragment(struct row words, struct row text)
{
    struct mortisevane_fragment_read read = CALL(fragment_read, to_read(words), words.length / 4, to_write(text), text.length);
    answered(read.number);
    hold(read.number == 0 || all_zero(&read.continued, sizeof read - sizeof read.number), "fields told although refused");
    hold_written_only(text, 0, read.characters);
    hold_room(read.number, text.length, MORTISEVANE_FRAGMENT_CHARACTERS);
    return read;
}

struct row lend_fragment(const struct message *message, size_t fragment)
{
    size_t begin = fragment * message->largest;
    size_t rest = message->total - begin;
    return lend_copy(message->words + begin, 4 * (rest < message->largest ? rest : message->largest));
}

struct row lend_some_fragment(const struct message *message, size_t fragment)
{
    uint32_t words[MORTISEVANE_FRAGMENT_WORDS];
    if (one_in(16))
        return lend_some_words(MORTISEVANE_FRAGMENT_WORDS);
    struct row good = lend_fragment(message, fragment);
    if (!one_in(8))
        return good;
    size_t length = good.length;
    memcpy(words, to_read(good), length);
    uint32_t *changed = words + random_below(length / 4);
    if (one_in(8))
        random_flip(words, length);
    else
        *changed ^= 1u << random_below(WORD_BITS);
    if (one_in(16))
        length -= 4;
    if (!one_in(4))
        words[0] = (words[0] & ~(uint32_t)FRAGMENT_CHECK) | ask_ten_bit(lend_copy(words, length));
    return lend_copy(words, length);
}

void fuzz_fragment_heading(void)
{
    const struct message *message = some_message();
    struct row words = lend_some_fragment(message, random_below(message->fragments));
    struct mortisevane_fragment_read heading = ask_heading(words);
    struct row text = lend_row(&write_memory, MORTISEVANE_FRAGMENT_CHARACTERS);
    struct mortisevane_fragment_read read = ask_fragment(words, text);
    hold(memcmp(&read, &heading, sizeof read) == 0, "heading and fragment are not the same");
}

void fuzz_fragment_read(void)
{
    const struct message *message = some_message();
    struct row words = lend_some_fragment(message, random_below(message->fragments));
    struct row text = lend_row(&write_memory, random_length(MORTISEVANE_FRAGMENT_CHARACTERS, MEMORY_BYTES));
    ask_fragment(words, text);
}

/* ---- Texts cut ---- */

/* The messages that were cut last. With more of them than slots all slots come to be taken. */
enum { MESSAGES = 24 };
static struct message messages[MESSAGES];

static size_t some_largest(void)
{
    if (one_in(32))
        return random_of_width(SIZE_BITS);
    return one_in(4) ? random_between(0, MORTISEVANE_FRAGMENT_WORDS + 2) : random_between(20, MORTISEVANE_FRAGMENT_WORDS);
}

static struct mortisevane_marks some_marks(void)
{
    struct mortisevane_marks marks;
    marks.message_number = (uint32_t)random_below(64);
    marks.retrieval = (uint32_t)random_below(2);
    marks.mail_drop = (uint32_t)random_below(2);
    if (one_in(64))
        random_flip(&marks, sizeof marks);
    return marks;
}

/* Any seven-bit characters but ETX, up to the longest text and more; now and then one that is refused, or any bytes. */
static struct row lend_some_text(void)
{
    size_t most = one_in(16) ? MEMORY_BYTES : MORTISEVANE_TEXT_CHARACTERS + 8;
    struct row text = lend_row(&read_memory, random_length(one_in(2) ? 200 : MORTISEVANE_TEXT_CHARACTERS, most));
    uint8_t *filled = to_fill(text);
    if (one_in(32))
        return text;
    random_fill(filled, text.length);
    for (size_t place = 0; place < text.length; place++) {
        filled[place] &= 0x7F;
        if (filled[place] == ETX)
            filled[place] = ' ';
    }
    if (text.length > 0 && one_in(16)) {
        uint8_t *changed = filled + random_below(text.length);
        *changed = one_in(2) ? ETX : (uint8_t)random_between(0x80, 0xFF);
    }
    return text;
}

/* Each fragment reads as good, and their texts joined are the text. */
static void hold_joined(const struct message *message)
{
    size_t joined = 0;
    for (size_t fragment = 0; fragment < message->fragments; fragment++) {
        struct row text = lend_row(&write_memory, MORTISEVANE_FRAGMENT_CHARACTERS);
        struct mortisevane_fragment_read read = ask_fragment(lend_fragment(message, fragment), text);
        hold(read.number == 0, "a fragment of a cut text is refused");
        hold(read.continued == (fragment + 1 < message->fragments), "C is not whether more follows");
        hold(read.fragment_number == (fragment == 0 ? 3 : (fragment - 1) % 3), "F does not count");
        hold(joined + read.characters <= message->characters
                && memcmp(to_fill(text), message->text + joined, read.characters) == 0,
            "the fragments are not the text");
        joined += read.characters;
    }
    hold(joined == message->characters, "the fragments are less than the text");
}

static struct mortisevane_text_cut ask_cut(struct row text, size_t largest, struct row words)
{
    struct mortisevane_text_cut cut = CALL(text_cut, to_read(text), text.length, some_marks(), largest, to_write(words),
        words.length / 4);
    answered(cut.number);
    hold_written_only(words, 0, 4 * cut.words);
    hold((cut.number == 0) == (cut.words > 0) && (cut.number == 0) == (cut.fragments > 0),
        "fragments told although refused, or none");
    hold(cut.words <= MORTISEVANE_CUT_WORDS && cut.fragments <= cut.words, "more than a text");
    hold_room(cut.number, words.length / 4, MORTISEVANE_CUT_WORDS);
    return cut;
}

/* Cuts some text, and keeps the message where it is accepted. */
static bool cut_message(struct message *message)
{
    struct row text = lend_some_text();
    struct row words = lend_row(&write_memory, 4 * random_length(one_in(4) ? 60 : MORTISEVANE_CUT_WORDS, MEMORY_WORDS));
    size_t largest = some_largest();
    struct mortisevane_text_cut cut = ask_cut(text, largest, words);
    if (cut.number != 0)
        return false;
    hold(text.length <= MORTISEVANE_TEXT_CHARACTERS, "a text that is too long was taken");
    hold(largest <= MORTISEVANE_FRAGMENT_WORDS && (cut.fragments - 1) * largest < cut.words
            && cut.words <= cut.fragments * largest,
        "the fragments are not of the largest size");
    message->characters = text.length;
    memcpy(message->text, to_read(text), text.length);
    message->largest = largest;
    message->fragments = cut.fragments;
    message->total = cut.words;
    memcpy(message->words, to_fill(words), 4 * cut.words);
    message->address = (uint32_t)random_below(32);
    message->next = 0;
    return true;
}

struct message *some_message(void)
{
    struct message *message = &messages[random_below(MESSAGES)];
    while (message->fragments == 0)
        cut_message(message);
    return message;
}

void fuzz_text_cut(void)
{
    struct message *message = &messages[random_below(MESSAGES)];
    if (cut_message(message) && (message->fragments <= 16 || one_in(16)))
        hold_joined(message);
}
