/*
 * The first pages of a pager, for a C programmer who links libmortisevane.a: from the reset of the decoder to a text
 * on the display. Read it from the end: main says what happens, and each function above it is one step.
 *
 *   cc -std=c11 -I include examples/first_pages.c target/staticlib/libmortisevane.a -o first_pages
 *
 * No decoder is needed: what it would send is built here too. docs/start-up.md explains the set-up packet by packet,
 * and pager.c is the same host for every packet that may come.
 */
#include "mortisevane.h"

#include <stdio.h>
#include <stdlib.h>
#include <string.h>

/*
 * What the host remembers. Each goes into a call by value and comes back in its answer; zeros are a fresh start. The
 * mirror is what the host knows of the decoder.
 */
static struct mortisevane_mirror mirror;
static struct mortisevane_calls calls;
static struct mortisevane_chains chains;

/*
 * The set of characters of numeric pages. Nothing that comes tells which of the two sets a sender uses, so this is a
 * setting of the pager: MORTISEVANE_SET_CHINESE has A to E for `?`, `U`, `-`, `]` and `[`.
 */
enum { PAGE_SET = MORTISEVANE_SET_STANDARD };

/* What it lends: here lie the words of calls and the texts of chains. The library has no memory of its own. */
static uint32_t call_words[MORTISEVANE_CALL_WORDS];
static uint8_t chain_texts[MORTISEVANE_CHAIN_BYTES];

/* Every answer has a number: 0, or that of its refusal. A board goes on after most of them; this example has none. */
static void expect_taken(uint32_t number)
{
    if (number != 0) {
        fprintf(stderr, "first_pages: refused %lu\n", (unsigned long)number);
        exit(EXIT_FAILURE);
    }
}

/* Sends a packet: a board would hand its 32 bits to the decoder here. The mirror follows every packet that goes out. */
static void send_packet(struct mortisevane_built built)
{
    struct mortisevane_mirrored mirrored;

    expect_taken(built.number);
    expect_taken(mortisevane_may_send(built.packet.bits));
    mirrored = mortisevane_mirror_step(mirror, built.packet.bits);
    expect_taken(mirrored.number);
    mirror = mirrored.mirror;
    printf("sent %08lX\n", (unsigned long)built.packet.bits);
}

/* After a reset the decoder tells its part ID. The register of the mirror begins with it. */
static void reset(void)
{
    struct mortisevane_part_id fields = { .model = 0, .compatibility = 1, .revision = 6 };
    struct mortisevane_built part_id = mortisevane_build_part_id(fields);
    struct mortisevane_mirrored mirrored;

    expect_taken(part_id.number);
    mirrored = mortisevane_mirror_reset(part_id.packet.bits);
    expect_taken(mirrored.number);
    mirror = mirrored.mirror;
    printf("reset: part ID %08lX\n", (unsigned long)part_id.packet.bits);
}

/* A CAPCODE is the text on a pager's label: it says which address the pager has, and in which frames it listens. */
static struct mortisevane_capcode read_capcode(const char *label)
{
    struct mortisevane_capcode capcode = mortisevane_capcode_read((const uint8_t *)label, strlen(label));

    expect_taken(capcode.number);
    return capcode;
}

static struct mortisevane_frames frames_of(struct mortisevane_capcode capcode)
{
    struct mortisevane_listeners listeners = { .count = 1 };
    struct mortisevane_frames frames;

    listeners.listeners[0].frame = capcode.base;
    listeners.listeners[0].collapse = capcode.collapse;
    frames = mortisevane_frames_listened(listeners);
    expect_taken(frames.number);
    return frames;
}

/* Eight packets of sixteen frames each: the first has the highest frames. */
static void assign_frames(struct mortisevane_frames frames)
{
    for (uint32_t range = 0; range < 8; range += 1) {
        struct mortisevane_frame_assignment fields = { .range = range, .frames = frames.masks[range] };
        send_packet(mortisevane_build_frame_assignment(fields));
    }
}

/* A short address is one word. A long one has two, which go to an even location and the next. */
static void assign_address(struct mortisevane_words words)
{
    struct mortisevane_user_address fields = { .location = 0, .word = words.first };
    struct mortisevane_address_enable locations = { .enabled = 1 };

    send_packet(mortisevane_build_user_address(fields));
    send_packet(mortisevane_build_address_enable(locations));
}

/* The set-up: what is sent after a reset. The checksum that closes it makes the decoder talk. */
static void set_up(const char *label)
{
    struct mortisevane_capcode capcode = read_capcode(label);
    struct mortisevane_words words = mortisevane_address_words(capcode.address);
    struct mortisevane_frames frames = frames_of(capcode);
    struct mortisevane_configuration configuration = { .oscillator = 1, .synchronous_mode = 1, .minute_timer = 1 };
    struct mortisevane_all_frame_mode every_frame = { .force = 1 };
    struct mortisevane_control control = { .on = 1 };

    expect_taken(words.number);
    printf("CAPCODE %s: word %06lX, base frame %u, %lu frames\n", label, (unsigned long)words.first,
            (unsigned)capcode.base, (unsigned long)frames.count);
    reset();
    send_packet(mortisevane_build_configuration(configuration));
    assign_frames(frames);
    assign_address(words);
    /* In all frame mode the decoder tells the end of each frame, which ends its calls. */
    send_packet(mortisevane_build_all_frame_mode(every_frame));
    send_packet(mortisevane_build_control(control));
    send_packet(mortisevane_mirror_closing(mirror));
    if (mirror.talking != 0)
        puts("the decoder is talking");
}

/*
 * A numeric page is whole in one call. Its zeros are characters: 0417 is not 417. Its text has all the characters that
 * its words have room for, and a display shows those before the spaces at the end: spaces fill up the last word.
 */
static void show_numeric_page(struct mortisevane_call call, const uint32_t *words)
{
    uint8_t text[MORTISEVANE_PAGE_CHARACTERS];
    struct mortisevane_page_read page = mortisevane_numeric_read(PAGE_SET, call.kind, call.check,
            words, call.words, text, sizeof text);

    expect_taken(page.number);
    printf("address %lu: [%.*s]\n", (unsigned long)call.address, (int)(page.characters - page.spaces_at_end),
            (const char *)text);
}

/* A text comes in one fragment or in several. It is handed out with the last of them, and only as it was sent. */
static void join_fragment(struct mortisevane_call call, const uint32_t *words)
{
    struct mortisevane_chain_step step = mortisevane_chain_step(chains,
            chain_texts, MORTISEVANE_CHAIN_BYTES, call.address, words, call.words);
    struct mortisevane_chain_answer answer = step.answer;

    chains = step.chains;
    expect_taken(answer.number);
    if (answer.complete != 0)
        printf("address %lu: [%.*s]\n", (unsigned long)call.address, (int)answer.characters,
                (const char *)chain_texts + answer.place);
    else
        printf("address %lu: a fragment, more is to come\n", (unsigned long)call.address);
}

/* An address packet opens a call: the vector and the words of a page will follow. */
static void hear_address(uint32_t packet)
{
    struct mortisevane_call_opening opening = mortisevane_call_open(calls, packet);

    calls = opening.calls;
    expect_taken(opening.answer.number);
}

/* A vector or a word. Each bit of `completed` is a call that has all its words now. */
static void hear_word(uint32_t packet)
{
    struct mortisevane_call_hearing hearing = mortisevane_call_hear(calls,
            call_words, MORTISEVANE_CALL_WORDS, packet);

    calls = hearing.calls;
    expect_taken(hearing.answer.number);
    for (size_t place = 0; place < MORTISEVANE_CALLS; place += 1) {
        struct mortisevane_call call = calls.calls[place];
        const uint32_t *words = call_words + mortisevane_call_place(call);
        if ((hearing.answer.completed >> place & 1) == 0)
            continue;
        if (call.kind == MORTISEVANE_VECTOR_ALPHANUMERIC)
            join_fragment(call, words);
        else
            show_numeric_page(call, words);
    }
}

/* The end of a frame ends its calls, complete or not. */
static void hear_end_of_frame(void)
{
    struct mortisevane_frame_end end = mortisevane_call_end(calls, call_words, MORTISEVANE_CALL_WORDS);

    calls = end.calls;
    expect_taken(end.number);
}

/*
 * What the decoder sends for a page in a frame: an address, a vector and the words. The library builds no packets of
 * the decoder's, so their bits are put together here by the tables in docs/datasheet.md. The address packet (Table 30)
 * is that of address 0 on phase A, its vector at word 2; the vector (Tables 31 and 36) says that the words begin at
 * word 3.
 */
static void hear_page(uint32_t kind, uint32_t check_and_count, const uint32_t *words, size_t count)
{
    hear_address(0x01000002);
    hear_word(0x02000003 | kind << 16 | check_and_count << 7);
    for (uint32_t place = 0; place < count; place += 1)
        hear_word((3 + place) << 24 | words[place]);
    hear_end_of_frame();
}

/* A sender's words for a numeric page. Its vector has K and one less than the number of words. */
static void hear_numeric_page(const char *text)
{
    struct mortisevane_numbering none = { 0 };
    uint32_t words[MORTISEVANE_PAGE_WORDS];
    struct mortisevane_written written = mortisevane_numeric_write(PAGE_SET, (const uint8_t *)text, strlen(text),
            MORTISEVANE_VECTOR_STANDARD, none, words, MORTISEVANE_PAGE_WORDS);

    expect_taken(written.number);
    hear_page(MORTISEVANE_VECTOR_STANDARD, written.check << 3 | (uint32_t)(written.words - 1), words, written.words);
}

/* A sender's words for a text, in fragments of eight words at most, one in a frame. */
static void hear_text(const char *text)
{
    enum { LARGEST = 8 };
    static uint32_t words[MORTISEVANE_CUT_WORDS];
    struct mortisevane_marks marks = { .message_number = 5, .retrieval = 1 };
    struct mortisevane_text_cut cut = mortisevane_text_cut((const uint8_t *)text, strlen(text),
            marks, LARGEST, words, MORTISEVANE_CUT_WORDS);

    expect_taken(cut.number);
    for (size_t start = 0; start < cut.words; start += LARGEST) {
        size_t rest = cut.words - start;
        size_t count = rest < LARGEST ? rest : LARGEST;
        hear_page(MORTISEVANE_VECTOR_ALPHANUMERIC, (uint32_t)count, words + start, count);
    }
}

int main(void)
{
    set_up("E0001234");
    hear_numeric_page("0417");
    hear_text("A04 EMMA 2, A11 IVANHOE 1, B17 KIM 10, C22 DRACULA 3");
    return EXIT_SUCCESS;
}
