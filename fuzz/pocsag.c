/* POCSAG pages: words mended, streams of words heard, texts read. */
#include "fuzz.h"

/* Words as they are sent (02, item 5), and what a batch, an address and a message word are made of. */
enum {
    SYNC = 0x7CD215D8,
    IDLE = 0x7A89C197,
    BATCH = 16,
    FRAMES = 8,
    ADDRESS_BITS = 21,
    FUNCTION_BITS = 2,
    INFORMATION_PLACE = 11,
    MESSAGE_BITS = 20,
    MESSAGE = 1 << MESSAGE_BITS,
};

/* The generator x^10 + x^9 + x^8 + x^6 + x^5 + x^3 + 1, and the highest power of a word's 31 code bits. */
enum { GENERATOR = 0x769, DEGREE = 10, HIGHEST_POWER = 30 };

static uint32_t remainder_of(uint32_t word)
{
    uint32_t left = word >> 1;
    for (int power = HIGHEST_POWER; power >= DEGREE; power--)
        if ((left >> power & 1) != 0)
            left ^= (uint32_t)GENERATOR << (power - DEGREE);
    return left;
}

static uint32_t ones_in(uint32_t word)
{
    uint32_t ones = 0;
    for (; word != 0; word &= word - 1)
        ones++;
    return ones;
}

static bool is_sent(uint32_t word)
{
    return remainder_of(word) == 0 && ones_in(word) % 2 == 0;
}

/* The word with these 21 information bits. */
static uint32_t sent_word(uint32_t information)
{
    uint32_t word = information << INFORMATION_PLACE;
    word |= remainder_of(word) << 1;
    return word | ones_in(word) % 2;
}

/* The 20 bits of a message word in the other order: of what is stored the first sent bit is the lowest. */
static uint32_t turned(uint32_t bits)
{
    uint32_t other = 0;
    for (int place = 0; place < MESSAGE_BITS; place++)
        other = other << 1 | (bits >> place & 1);
    return other;
}

static uint32_t message_word(uint32_t bits)
{
    return sent_word(MESSAGE | turned(bits));
}

static uint32_t address_word(uint32_t address, uint32_t function)
{
    return sent_word(address / FRAMES << FUNCTION_BITS | function);
}

/* A word that was sent, of any sort. */
static uint32_t some_sent_word(void)
{
    uint32_t information = (uint32_t)random_below(2 * MESSAGE);
    switch (random_below(8)) {
    case 0:
        return SYNC;
    case 1:
        return IDLE;
    case 2:
        return sent_word(information % MESSAGE);
    default:
        return sent_word(information | MESSAGE);
    }
}

/* With one or two wrong code bits. */
static uint32_t with_wrong_bits(uint32_t word)
{
    uint32_t wrong = 1u << random_between(1, 31);
    wrong |= 1u << random_between(1, 31);
    return word ^ wrong;
}

/* As a word may come: whole, or with wrong bits that can be mended, or with any. */
static uint32_t as_it_comes(uint32_t word)
{
    if (one_in(4))
        word = with_wrong_bits(word);
    if (one_in(64))
        word = with_wrong_bits(word);
    if (one_in(64))
        word ^= 1;
    return one_in(64) ? (uint32_t)random_bits() : word;
}

/* ---- Mending ---- */

/* A word that was mended is a sent word, and differs in as many code bits as are told; another is as it came. */
static void hold_mended(uint32_t came, uint32_t word, uint32_t bits)
{
    uint32_t changed = came ^ word;
    if (bits == MORTISEVANE_REFUSED_BEYOND_REPAIR) {
        hold(changed == 0, "a word beyond repair is changed");
        hold(!is_sent(came), "a sent word is beyond repair");
        return;
    }
    hold(bits <= 2, "more than two bits are told as changed");
    hold(ones_in(changed) == bits, "not as many bits are changed as are told");
    hold((changed & 1) == 0, "the parity bit is changed");
    hold(is_sent(word), "mended is no sent word");
}

/* A word that is beyond repair has no sent word within two code bits. */
static void hold_beyond_repair(uint32_t word)
{
    for (int lower = 1; lower < 32; lower++)
        for (int higher = lower; higher < 32; higher++)
            hold(!is_sent(word ^ (1u << lower | 1u << higher)), "a word that can be mended is beyond repair");
}

/* Rows over 65,536 words are seldom, for each of their words is looked at. */
static size_t some_count(size_t usual)
{
    return random_length(usual, one_in(8) ? MEMORY_WORDS : usual + 8);
}

void fuzz_pocsag_mend(void)
{
    struct row words = lend_row(&pocsag_memory, 4 * some_count(40));
    size_t count = words.length / 4;
    uint32_t *filled = to_fill(words);
    for (size_t place = 0; place < count; place++)
        filled[place] = one_in(4) ? (uint32_t)random_bits() : as_it_comes(some_sent_word());
    remember(words);
    struct row bits = lend_row(&write_memory, 4 * (one_in(8) ? some_count(40) : count));
    uint32_t number = CALL(pocsag_mend, to_write(words), count, to_write(bits), bits.length / 4);
    answered(number);
    hold((number == 0) == (bits.length >= words.length), "1 is not where there are fewer places than words");
    if (number != 0) {
        hold_unwritten(words);
        hold_unwritten(bits);
        return;
    }
    const uint32_t *came = as_before(words);
    const uint32_t *mended = to_fill(words), *told = to_fill(bits);
    for (size_t place = 0; place < count; place++)
        hold_mended(came[place], mended[place], told[place]);
    if (count > 0 && one_in(4)) {
        size_t place = random_below(count);
        if (told[place] == MORTISEVANE_REFUSED_BEYOND_REPAIR)
            hold_beyond_repair(came[place]);
    }
    hold_written_only(words, 0, words.length);
    hold_written_only(bits, 0, words.length);
}

/* ---- The reader ---- */

/* The reader and the memory as the last answer left them. */
static struct mortisevane_pocsag_reader kept_reader;
static struct row kept_memory;

static bool same_reader(const struct mortisevane_pocsag_reader *left, const struct mortisevane_pocsag_reader *right)
{
    return left->left == right->left && left->is_open == right->is_open && left->address == right->address
        && left->function == right->function && left->words == right->words && left->mended == right->mended
        && left->fault == right->fault;
}

static bool same_page(const struct mortisevane_pocsag_page *left, const struct mortisevane_pocsag_page *right)
{
    return left->is_ended == right->is_ended && left->number == right->number && left->address == right->address
        && left->function == right->function && left->words == right->words && left->mended == right->mended;
}

/* Whether a page is told by nothing but zeros. */
static bool is_no_page(const struct mortisevane_pocsag_page *page)
{
    static const struct mortisevane_pocsag_page none;
    return same_page(page, &none);
}

/* Whether a reader has nothing but what is to come of its batch. */
static bool has_no_page(const struct mortisevane_pocsag_reader *reader)
{
    struct mortisevane_pocsag_reader none = { .left = reader->left };
    return same_reader(reader, &none);
}

static struct mortisevane_pocsag_reader some_open_reader(void)
{
    static const uint32_t faults[] = { 0, 0, 0, MORTISEVANE_REFUSED_TOO_LONG, MORTISEVANE_REFUSED_BEYOND_REPAIR };
    struct mortisevane_pocsag_reader reader = { .is_open = 1 };
    reader.left = (uint32_t)random_below(BATCH + 2);
    reader.address = (uint32_t)random_below(1 << ADDRESS_BITS);
    reader.function = (uint32_t)random_below(1 << FUNCTION_BITS);
    reader.words = random_below(48);
    reader.mended = (uint32_t)random_below(8);
    reader.fault = faults[random_below(sizeof faults / sizeof *faults)];
    return reader;
}

/* The kept reader, seldom made up, damaged or random. */
static struct mortisevane_pocsag_reader some_reader(void)
{
    struct mortisevane_pocsag_reader reader = kept_reader;
    if (one_in(16))
        reader = some_open_reader();
    if (one_in(32))
        random_flip(&reader, sizeof reader);
    if (one_in(64))
        random_fill(&reader, sizeof reader);
    return reader;
}

static struct row some_memory(void)
{
    if (kept_memory.memory == NULL || one_in(64))
        kept_memory = lend_row(&pocsag_memory, 4 * random_between(24, 48));
    if (!one_in(16))
        return kept_memory;
    return lend_row(&pocsag_memory, 4 * random_length(32, MEMORY_WORDS));
}

/* A word that may follow: mostly a sync word where one must come, and an address word where no page is open. */
static uint32_t some_next_word(uint32_t left, bool is_open)
{
    uint32_t word = some_sent_word();
    if (word == SYNC && !one_in(8))
        word = IDLE;
    if (word >> 31 != 0 && !is_open && !one_in(8))
        word = sent_word((uint32_t)random_below(MESSAGE));
    if ((left == 0 || left > BATCH) && !one_in(8))
        word = SYNC;
    return word;
}

/* Words that may follow what has come, each as it may arrive; now and then many others after them. */
static struct row lend_some_stream(const struct mortisevane_pocsag_reader *reader)
{
    uint32_t words[48];
    size_t count = random_length(40, sizeof words / sizeof *words);
    uint32_t left = reader->left;
    bool is_open = reader->is_open != 0;
    for (size_t place = 0; place < count; place++) {
        uint32_t word = some_next_word(left, is_open);
        left = word == SYNC ? BATCH : left - 1;
        is_open = word != SYNC && word != IDLE;
        words[place] = as_it_comes(word);
    }
    size_t lent = one_in(8) ? random_length(count, MEMORY_WORDS) : count;
    struct row row = lend_row(&read_memory, 4 * (lent > count ? lent : count));
    memcpy(to_fill(row), words, 4 * count);
    return row;
}

/* What is told of a page that ended is what the reader had of it, and its number is one that it may have. */
static void hold_page(const struct mortisevane_pocsag_reader *before, const struct mortisevane_pocsag_page *page,
    size_t lent)
{
    if (page->is_ended == 0) {
        hold(is_no_page(page), "a page is told that did not end");
        return;
    }
    uint32_t number = page->number;
    hold(page->is_ended == 1, "whether a page ended is told by another number than 1");
    hold(number == 0 || number == MORTISEVANE_REFUSED_TOO_LONG || number == MORTISEVANE_REFUSED_BEYOND_REPAIR
            || number == MORTISEVANE_REFUSED_NO_SYNC,
        "a number that no page has");
    hold(number != 0 || page->words <= lent, "a page is handed out that is not in the memory");
    if (before->is_open != 0)
        hold(page->address == before->address && page->function == before->function && page->words >= before->words
                && page->mended >= before->mended,
            "the page that ended is not the one that was open");
    else
        hold(page->address >> ADDRESS_BITS == 0 && page->function >> FUNCTION_BITS == 0,
            "an address or a function that no word has");
}

/*
 * A word beyond repair ends no page in its batch, so that a page with one had it before the call. A page ended unheard by a
 * word that is refused, or by a sync word too early, after which a whole batch is to come.
 */
static void hold_number(const struct mortisevane_pocsag_reader *before, const struct mortisevane_pocsag_heard *heard)
{
    bool is_long = before->is_open != 0 && before->fault == MORTISEVANE_REFUSED_TOO_LONG;
    bool is_faulty = before->is_open != 0 && before->fault != 0 && !is_long;
    bool is_unheard = heard->number != 0 || heard->reader.left == BATCH;
    uint32_t number = heard->page.number;
    if (heard->page.is_ended == 0)
        return;
    hold((number == MORTISEVANE_REFUSED_BEYOND_REPAIR) == is_faulty, "25 is not where a page has a word beyond repair");
    hold((number == MORTISEVANE_REFUSED_NO_SYNC) == (is_unheard && !is_faulty), "26 is not where a page ended unheard");
    hold(!is_long || number != 0, "a page that is longer than the memory is handed out");
}

/* Of one page at most words are stored in a call: from where it stood, or from the start where it began in the call. */
static void hold_stored(const struct mortisevane_pocsag_reader *before, const struct mortisevane_pocsag_heard *heard,
    struct row memory)
{
    mortisevane_size from = before->is_open != 0 ? before->words : 0;
    mortisevane_size to = from;
    if (heard->page.is_ended != 0)
        to = heard->page.words;
    else if (heard->reader.is_open != 0)
        to = heard->reader.words;
    hold(to >= from && to - from <= heard->taken, "more words are stored than came");
    if (to == from) {
        hold_unwritten(memory);
        return;
    }
    hold(to <= memory.length / 4, "more words are stored than are lent");
    const uint32_t *words = to_fill(memory);
    for (mortisevane_size place = from; place < to; place++)
        hold(words[place] < MESSAGE, "a stored word of more than 20 bits");
    hold_written_only(memory, 4 * from, 4 * (to - from));
}

/* How the reader stands after words. */
static void hold_reader(const struct mortisevane_pocsag_reader *before, const struct mortisevane_pocsag_heard *heard)
{
    const struct mortisevane_pocsag_reader *reader = &heard->reader;
    if (heard->taken == 0) {
        hold(same_reader(before, reader), "no word changes the reader");
        return;
    }
    hold(reader->left <= BATCH, "more words are to come than a batch has");
    hold(reader->is_open <= 1 || reader->is_open == before->is_open, "a page is open by another number than 1");
    if (heard->number == MORTISEVANE_REFUSED_NO_SYNC)
        hold(reader->left == 0 && reader->is_open == 0, "a batch or a page goes on though no sync word came");
    if (heard->number == MORTISEVANE_REFUSED_NO_CALL)
        hold(reader->is_open == 0, "a word of no page while one is open");
    if (heard->page.is_ended != 0 && reader->is_open == 0)
        hold(has_no_page(reader), "something is left of a page that ended");
    if (heard->page.is_ended != 0 && reader->is_open != 0)
        hold(heard->number == 0 && reader->words == 0 && reader->fault == 0 && reader->mended <= 2,
            "a page that was just opened is not at its start");
}

static struct mortisevane_pocsag_heard ask_hear(struct mortisevane_pocsag_reader reader, struct row words,
    struct row memory)
{
    size_t count = words.length / 4, lent = memory.length / 4;
    struct mortisevane_pocsag_heard heard = CALL(pocsag_hear, reader, to_read(words), count, to_write(memory), lent);
    answered(heard.number);
    bool tells = heard.number != 0 || heard.page.is_ended != 0;
    hold(tells ? heard.taken > 0 && heard.taken <= count : heard.taken == count,
        "not all words are taken and nothing is told, or more than came");
    hold_page(&reader, &heard.page, lent);
    hold_number(&reader, &heard);
    hold_stored(&reader, &heard, memory);
    hold_reader(&reader, &heard);
    return heard;
}

/* The words before the last that was taken tell nothing, and what follows on them is the same as without a division. */
static void hold_divided(struct mortisevane_pocsag_reader reader, const struct mortisevane_pocsag_heard *heard,
    struct row words, struct row memory)
{
    uint32_t copied[48];
    if (heard->taken == 0 || heard->taken > sizeof copied / sizeof *copied)
        return;
    memcpy(copied, to_read(words), 4 * heard->taken);
    size_t first = random_below(heard->taken);
    struct mortisevane_pocsag_heard before = ask_hear(reader, lend_copy(copied, 4 * first), memory);
    hold(before.taken == first && before.number == 0 && before.page.is_ended == 0, "a word that told nothing tells now");
    struct mortisevane_pocsag_heard after
        = ask_hear(before.reader, lend_copy(copied + first, 4 * (heard->taken - first)), memory);
    hold(after.taken == heard->taken - first && after.number == heard->number && same_page(&after.page, &heard->page)
            && same_reader(&after.reader, &heard->reader),
        "divided words tell something else");
}

/* ---- Streams that were sent ---- */

enum { MOST_PAGES = 3, MOST_PAGE_WORDS = 20, MOST_STREAM_WORDS = 17 * 12 };

struct page {
    uint32_t address;
    uint32_t function;
    size_t count;
    uint32_t words[MOST_PAGE_WORDS];
};

struct stream {
    struct page pages[MOST_PAGES];
    size_t page_count;
    uint32_t words[MOST_STREAM_WORDS];
    size_t count;
};

/* A word goes out, after a sync word where a batch begins. */
static void transmit(struct stream *stream, uint32_t word)
{
    if (stream->count % (BATCH + 1) == 0)
        stream->words[stream->count++] = SYNC;
    stream->words[stream->count++] = word;
}

static uint32_t next_frame(const struct stream *stream)
{
    size_t place = stream->count % (BATCH + 1);
    return (uint32_t)(place == 0 ? 0 : (place - 1) / 2);
}

/* An address of which the word is neither the sync word nor the idle word. */
static void draw_address(struct page *page)
{
    uint32_t word;
    do {
        page->address = (uint32_t)random_below(1 << ADDRESS_BITS);
        page->function = (uint32_t)random_below(1 << FUNCTION_BITS);
        word = address_word(page->address, page->function);
    } while (word == SYNC || word == IDLE);
}

/* A page goes out in the frame of its address, and an idle word or the next page after it. */
static void send_page(struct stream *stream)
{
    struct page *page = &stream->pages[stream->page_count++];
    draw_address(page);
    page->count = random_below(MOST_PAGE_WORDS + 1);
    while (next_frame(stream) != page->address % FRAMES)
        transmit(stream, IDLE);
    transmit(stream, address_word(page->address, page->function));
    for (size_t place = 0; place < page->count; place++) {
        page->words[place] = (uint32_t)random_below(MESSAGE);
        transmit(stream, message_word(page->words[place]));
    }
}

static void hold_handed_out(const struct page *page, const struct mortisevane_pocsag_page *told, struct row memory)
{
    hold(told->number == 0 && told->address == page->address && told->function == page->function
            && told->words == page->count && memcmp(to_fill(memory), page->words, 4 * page->count) == 0,
        "a page is handed out that was not sent");
}

/* Pages of which every word arrives with at most two wrong code bits are handed out as they were sent. */
static void hold_stream(void)
{
    static struct stream stream;
    stream.page_count = stream.count = 0;
    for (uint64_t pages = random_between(1, MOST_PAGES); pages > 0; pages--)
        send_page(&stream);
    transmit(&stream, IDLE);
    for (size_t place = 0; place < stream.count; place++)
        if (one_in(2))
            stream.words[place] = with_wrong_bits(stream.words[place]);
    struct mortisevane_pocsag_reader reader = { 0 };
    struct row memory = lend_row(&pocsag_memory, 4 * MOST_PAGE_WORDS);
    size_t taken = 0, pages = 0;
    while (taken < stream.count) {
        size_t portion = random_between(1, one_in(2) ? 8 : stream.count);
        if (portion > stream.count - taken)
            portion = stream.count - taken;
        struct mortisevane_pocsag_heard heard = ask_hear(reader, lend_copy(stream.words + taken, 4 * portion), memory);
        hold(heard.number == 0, "a word that can be mended is refused");
        if (heard.page.is_ended != 0) {
            hold(pages < stream.page_count, "more pages are handed out than were sent");
            hold_handed_out(&stream.pages[pages++], &heard.page, memory);
        }
        reader = heard.reader;
        taken += heard.taken;
    }
    hold(pages == stream.page_count && reader.is_open == 0, "fewer pages are handed out than were sent");
}

void fuzz_pocsag_hear(void)
{
    if (one_in(8)) {
        hold_stream();
        return;
    }
    for (uint64_t turn = random_between(1, 4); turn > 0; turn--) {
        struct mortisevane_pocsag_reader reader = some_reader();
        struct row memory = some_memory();
        struct row words = lend_some_stream(&reader);
        struct mortisevane_pocsag_heard heard = ask_hear(reader, words, memory);
        kept_reader = heard.reader;
        if (one_in(4))
            hold_divided(reader, &heard, words, memory);
    }
}

void fuzz_pocsag_close(void)
{
    struct mortisevane_pocsag_reader reader = one_in(2) ? some_open_reader() : some_reader();
    struct mortisevane_pocsag_page page = CALL(pocsag_close, reader);
    answered(page.number);
    hold((page.is_ended != 0) == (reader.is_open != 0), "the close ends a page that is not open, or not one that is");
    hold_page(&reader, &page, 0);
    if (page.is_ended == 0)
        return;
    bool beyond_repair = reader.fault != 0 && reader.fault != MORTISEVANE_REFUSED_TOO_LONG;
    hold(page.number == (beyond_repair ? MORTISEVANE_REFUSED_BEYOND_REPAIR : MORTISEVANE_REFUSED_NO_SYNC),
        "a page that the close ends has another number");
    hold(page.words == reader.words && page.mended == reader.mended, "a page that the close ends is another");
}

/* ---- Texts ---- */

/* What a page is read as: by one of two sets of characters, or as seven-bit text. */
enum { KINDS = 3, TEXT = 2, NUMERIC_BITS = 4, TEXT_BITS = 7, NUL = 0, ETX = 3, EOT = 4 };
static const char sets[TEXT][17] = { "0123456789?U -][", "0123456789AB CDE" };

static size_t width_of(uint32_t kind)
{
    return kind == TEXT ? TEXT_BITS : NUMERIC_BITS;
}

/* The character at a place, from the words' bits. */
static uint8_t character_at(uint32_t kind, const uint32_t *words, size_t place)
{
    uint32_t code = 0;
    for (size_t bit = width_of(kind); bit > 0; bit--) {
        size_t at = place * width_of(kind) + bit - 1;
        code = code << 1 | (words[at / MESSAGE_BITS] >> at % MESSAGE_BITS & 1);
    }
    return (uint8_t)(kind == TEXT ? code : (uint32_t)sets[kind][code]);
}

static bool is_fill(uint32_t kind, uint8_t character)
{
    if (kind != TEXT)
        return character == ' ';
    return character == NUL || character == ETX || character == EOT;
}

/* Words of 20 bits, often with nothing but fill from a place on; now and then one of more bits, or any words. */
static struct row lend_some_message(void)
{
    struct row words = lend_row(&read_memory, 4 * some_count(20));
    size_t count = words.length / 4;
    uint32_t *filled = to_fill(words);
    if (one_in(16))
        return words;
    size_t fill = one_in(2) ? random_between(0, count) : 0;
    uint32_t filler = one_in(2) ? 0 : 0xCCCCC;
    for (size_t place = 0; place < count; place++)
        filled[place] = place + fill >= count ? filler : (uint32_t)random_below(MESSAGE);
    if (count > 0 && one_in(8)) {
        uint32_t *changed = filled + random_below(count);
        *changed ^= 1u << random_between(one_in(2) ? 0 : MESSAGE_BITS, 31);
    }
    return words;
}

static bool has_large_word(struct row words)
{
    const uint32_t *looked_at = to_read(words);
    size_t place = 0;
    while (place < words.length / 4 && looked_at[place] < MESSAGE)
        place++;
    return place < words.length / 4;
}

/* Every character is that of its bits, and the fill that is told stands at the end. */
static void hold_text(struct mortisevane_pocsag_text read, uint32_t kind, struct row words, struct row text)
{
    const uint8_t *characters = to_fill(text);
    size_t fill_from = read.characters;
    for (size_t place = 0; place < read.characters; place++)
        hold(characters[place] == character_at(kind, to_read(words), place), "a character is not that of its bits");
    while (fill_from > 0 && is_fill(kind, characters[fill_from - 1]))
        fill_from--;
    hold(read.fill_at_end == read.characters - fill_from, "the fill that is told is not that at the end");
}

void fuzz_pocsag_read(void)
{
    uint32_t kind = (uint32_t)(one_in(16) ? random_of_width(32) : random_below(KINDS));
    struct row words = lend_some_message();
    size_t needed = MESSAGE_BITS * (words.length / 4) / width_of(kind);
    size_t room = one_in(4) ? random_length(needed < 100 ? needed : 100, MEMORY_BYTES) : needed;
    struct row text = lend_row(&write_memory, room < MEMORY_BYTES ? room : MEMORY_BYTES);
    struct mortisevane_pocsag_text read
        = CALL(pocsag_read, kind, to_read(words), words.length / 4, to_write(text), text.length);
    answered(read.number);
    uint32_t due = 0;
    if (text.length < needed)
        due = MORTISEVANE_REFUSED_ROOM;
    if (has_large_word(words))
        due = MORTISEVANE_REFUSED_DAMAGED;
    if (kind >= KINDS)
        due = MORTISEVANE_REFUSED_PACKET;
    hold(read.number == due, "refused by another number than is due");
    hold(read.characters == (due == 0 ? needed : 0), "not as many characters as the words have room for");
    hold(due == 0 || read.fill_at_end == 0, "fill told although refused");
    hold_written_only(text, 0, read.characters);
    if (due == 0)
        hold_text(read, kind, words, text);
}
