/*
 * Counts the instructions of the library's telling operations on an emulated board, and prints a line for each: the
 * operation, its input in the words of docs/BENCHMARKS.md, the instructions, and those of them that are the caller's. It
 * is to be run by an emulator that lets every instruction take the same time (tools/bench-board), and says so where that
 * is not the case. An answer that is not the one to be expected ends it with status 1. An argument names one part of the
 * operations, and then only that part is counted.
 *
 * Of most operations the instructions are counted from the first to the return. `chain_step`, `call_hear`, `call_end` and
 * `pocsag_hear` take state by value and give it back by value, so of them those of the caller are counted too: the records
 * copied in, and the records and the answer copied out to where they are kept.
 */
#include "board.h"
#include "mortisevane.h"

#include <stdbool.h>
#include <stdio.h>
#include <stdlib.h>
#include <string.h>

/* ---- The clock, in ticks of which each instruction takes the same number ---- */

#ifdef __riscv
enum { CLOCK_MASK = -1 };

static void start_clock(void)
{
}

static inline uint32_t clock_now(void)
{
    uint32_t now;

    __asm__ volatile(".option push\n.option arch, +zicsr\ncsrr %0, minstret\n.option pop" : "=r"(now));
    return now;
}
#else
/* The processor's own timer of 24 bits, which counts down (SysTick). */
enum { CLOCK_MASK = 0xFFFFFF, CLOCK_STARTED = 5 };

static volatile uint32_t *const clock_registers = (volatile uint32_t *)0xE000E010;

static void start_clock(void)
{
    clock_registers[1] = CLOCK_MASK;
    clock_registers[2] = 0;
    clock_registers[0] = CLOCK_STARTED;
}

static inline uint32_t clock_now(void)
{
    return ~clock_registers[2];
}
#endif

/* ---- What calls are held against: a function that returns at once, and a loop of two instructions a turn ---- */

typedef void any_function(void);
typedef void loop_function(uint32_t turns);

any_function count_nothing;
loop_function count_loop;

#ifdef __riscv
__asm__(".text\n"
        ".globl count_loop\n"
        "count_loop:\n"
        "    addi a0, a0, -1\n"
        "    bnez a0, count_loop\n"
        ".globl count_nothing\n"
        "count_nothing:\n"
        "    ret\n");
#else
__asm__(".text\n"
        ".syntax unified\n"
        ".globl count_loop\n"
        ".thumb_func\n"
        "count_loop:\n"
        "    subs r0, #1\n"
        "    bne count_loop\n"
        ".globl count_nothing\n"
        ".thumb_func\n"
        "count_nothing:\n"
        "    bx lr\n");
#endif

/* ---- Counting ---- */

/* Calls an export with what was prepared, and keeps its answer. */
typedef void caller_function(any_function *export);

/* The caller that only jumps to the function. It has no instruction of its own that would be counted. */
static caller_function *const no_caller = (caller_function *)count_nothing;

/* Of a run of so many instructions the ticks were taken, by which all other ticks are told in instructions. */
enum { KNOWN_INSTRUCTIONS = 100000 };
static uint32_t known_ticks;

_Noreturn static void fail(const char *operation, const char *input, const char *what)
{
    fprintf(stderr, "count: %s, %s: %s\n", operation, input, what);
    exit(1);
}

__attribute__((noinline, noclone)) static uint32_t ticks_of(caller_function *caller, any_function *export)
{
    uint32_t before = clock_now();

    caller(export);
    return (clock_now() - before) & CLOCK_MASK;
}

/* The instructions by which two runs differ, rounded: of two that are alike either may be a tick longer. */
static uint32_t instructions_between(uint32_t shorter, uint32_t longer)
{
    int64_t ticks = (int64_t)longer - shorter;

    return (uint32_t)((ticks * KNOWN_INSTRUCTIONS + known_ticks / 2) / known_ticks);
}

/* The instructions of an export from its first to its return, of its caller without it, and both. */
struct counted {
    uint32_t export;
    uint32_t caller;
    uint32_t both;
};

/* By the ticks of the caller with the export and with a function that returns at once, which is one instruction. */
static struct counted counted_of(uint32_t with_export, uint32_t with_nothing)
{
    struct counted counted;

    counted.export = instructions_between(with_nothing, with_export) + 1;
    counted.caller = instructions_between(ticks_of(no_caller, count_nothing), with_nothing);
    counted.both = counted.export + counted.caller;
    return counted;
}

/* A call that changes nothing that it is given. */
static struct counted count(caller_function *caller, any_function *export)
{
    uint32_t with_nothing = ticks_of(caller, count_nothing);

    return counted_of(ticks_of(caller, export), with_nothing);
}

static void tell(const char *operation, const char *input, uint32_t instructions, uint32_t of_caller)
{
    printf("%s|%s|%lu|%lu\n", operation, input, (unsigned long)instructions, (unsigned long)of_caller);
}

/* From the export's first instruction to its return. */
static void tell_export(const char *operation, const char *input, struct counted counted)
{
    tell(operation, input, counted.export, 0);
}

static void tell_with_caller(const char *operation, const char *input, struct counted counted)
{
    tell(operation, input, counted.both, counted.caller);
}

static void expect(bool is_right, const char *operation, const char *input)
{
    if (!is_right)
        fail(operation, input, "the answer is not the one to be expected");
}

/* ---- The clock is right ---- */

static uint32_t turns;

static void run_loop(any_function *loop)
{
    ((loop_function *)loop)(turns);
}

static uint32_t ticks_of_turns(uint32_t wanted)
{
    turns = wanted;
    return ticks_of(run_loop, (any_function *)count_loop);
}

/* Loops of known length, and a call of nothing, must be told exactly. */
static void calibrate(void)
{
    static const uint32_t known[] = { 1, 2, 3, 10, 1000, 12345, 60000 };
    static const char inexact[] = "its instructions are not told exactly; the emulator needs -icount shift=10";
    uint32_t shorter = ticks_of_turns(1), longer = ticks_of_turns(1 + KNOWN_INSTRUCTIONS / 2);

    known_ticks = (longer - shorter) & CLOCK_MASK;
    if (known_ticks < KNOWN_INSTRUCTIONS)
        fail("the clock", "a loop", inexact);
    for (size_t place = 0; place < sizeof known / sizeof *known; place++) {
        turns = known[place];
        struct counted loop = count(run_loop, (any_function *)count_loop);
        struct counted nothing = count(run_loop, count_nothing);
        if (loop.export != 2 * known[place] + 1 || nothing.export != 1 || nothing.caller != loop.caller)
            fail("the clock", "a loop", inexact);
    }
}

/* ---- Addresses and CAPCODEs ---- */

static uint64_t address;

typedef struct mortisevane_class class_function(uint64_t address);
static struct mortisevane_class class_answer;

static void call_class(any_function *export)
{
    class_answer = ((class_function *)export)(address);
}

static struct counted count_class(const char *input, uint64_t wanted, uint32_t number, uint32_t class)
{
    address = wanted;
    struct counted counted = count(call_class, (any_function *)mortisevane_address_class);
    expect(class_answer.number == number && class_answer.address_class == class, "address_class", input);
    return counted;
}

static void address_class(const char *input, uint64_t wanted, uint32_t number, uint32_t class)
{
    tell_export("address_class", input, count_class(input, wanted, number, class));
}

typedef struct mortisevane_words words_function(uint64_t address);
static struct mortisevane_words words_answer;

static void call_words(any_function *export)
{
    words_answer = ((words_function *)export)(address);
}

static struct counted count_words(const char *input, uint64_t wanted, const struct mortisevane_words *expected)
{
    address = wanted;
    struct counted counted = count(call_words, (any_function *)mortisevane_address_words);
    expect(memcmp(&words_answer, expected, sizeof words_answer) == 0, "address_words", input);
    return counted;
}

static void address_words(const char *input, uint64_t wanted, const struct mortisevane_words *expected)
{
    tell_export("address_words", input, count_words(input, wanted, expected));
}

typedef struct mortisevane_assignment assign_function(uint8_t letter, uint32_t frame, uint32_t collapse, uint64_t address);
static struct mortisevane_assignment assignment;

static void call_assign(any_function *export)
{
    assignment = ((assign_function *)export)('E', 0, 4, address);
}

/* The CAPCODE of an address whose letter takes nothing off it: any phase, and the base frame by S8.6.5. */
static struct counted count_assign(const char *input, uint64_t wanted)
{
    address = wanted;
    struct counted counted = count(call_assign, (any_function *)mortisevane_capcode_assign);
    expect(assignment.number == 0 && assignment.phase == 4 && assignment.base == wanted / 16 % 128, "capcode_assign", input);
    return counted;
}

static const struct {
    uint64_t address;
    uint32_t class;
    struct mortisevane_words words;
} sixteen[] = {
#include "sixteen-addresses.h"
};

static const char together[] = "16 addresses, together", dearest[] = "16 addresses, the dearest";

/* What sixteen calls took together, and the dearest of them. */
struct several {
    uint32_t together;
    uint32_t dearest;
};

static void add_call(struct several *several, struct counted counted)
{
    several->together += counted.export;
    if (several->dearest < counted.export)
        several->dearest = counted.export;
}

static void tell_several(const char *operation, struct several several)
{
    tell(operation, together, several.together, 0);
    tell(operation, dearest, several.dearest, 0);
}

static void sixteen_addresses(void)
{
    struct several classes = { 0, 0 }, words = { 0, 0 }, assignments = { 0, 0 };

    for (size_t place = 0; place < sizeof sixteen / sizeof *sixteen; place++) {
        add_call(&words, count_words(together, sixteen[place].address, &sixteen[place].words));
        add_call(&classes, count_class(together, sixteen[place].address, 0, sixteen[place].class));
        add_call(&assignments, count_assign(together, sixteen[place].address));
    }
    tell_several("address_words", words);
    tell_several("address_class", classes);
    tell_several("capcode_assign", assignments);
}

typedef struct mortisevane_capcode capcode_function(const uint8_t *text, size_t length);
static struct mortisevane_capcode capcode_answer;
static const char *label;
static size_t label_length;

static void call_capcode(any_function *export)
{
    capcode_answer = ((capcode_function *)export)((const uint8_t *)label, label_length);
}

static void capcode_read(const char *input, const char *text, uint64_t number, uint32_t collapse, uint32_t base)
{
    label = text;
    label_length = strlen(text);
    struct counted counted = count(call_capcode, (any_function *)mortisevane_capcode_read);
    expect(capcode_answer.number == 0 && capcode_answer.address == number && capcode_answer.collapse == collapse &&
            capcode_answer.base == base, "capcode_read", input);
    tell_export("capcode_read", input, counted);
}

static void addresses(void)
{
    static const struct mortisevane_words first_short = { 0, 1, 0x008001, 0 }, of_label = { 0, 1, 0x0084D2, 0 };
    static const struct mortisevane_words last_long = { 0, 2, 0x1FE6C0, 0x1E7F47 };
    static const struct mortisevane_words refused = { MORTISEVANE_REFUSED_RANGE, 0, 0, 0 };
    const uint64_t last = 4291000000;

    capcode_read("8 bytes, E0001234", "E0001234", 1234, 4, 77);
    capcode_read("15 bytes, 1275Y4291000000", "1275Y4291000000", last, 5, 127);
    address_words("the first short one", 1, &first_short);
    address_words("1234, a short one", 1234, &of_label);
    address_words("the last long one", last, &last_long);
    address_words("refused 5: of no range", last + 1, &refused);
    address_class("the first short one", 1, 0, MORTISEVANE_CLASS_SHORT);
    address_class("the last long one", last, 0, MORTISEVANE_CLASS_SET_23_INFORMATION_SERVICE);
    address_class("refused 5: of no range", last + 1, MORTISEVANE_REFUSED_RANGE, 0);
    sixteen_addresses();
}

/* ---- Frames and the mirror ---- */

typedef struct mortisevane_frames frames_function(struct mortisevane_listeners listeners);
static struct mortisevane_listeners listeners;
static struct mortisevane_frames frames_answer;

static void call_frames(any_function *export)
{
    frames_answer = ((frames_function *)export)(listeners);
}

/* The first address listens to every frame, so that all are marked. */
static void frames_listened(void)
{
    static const char operation[] = "frames_listened", input[] = "16 addresses";

    listeners.count = 16;
    for (uint32_t place = 0; place < listeners.count; place++) {
        listeners.listeners[place].frame = 7 * place;
        listeners.listeners[place].collapse = place % 6;
    }
    struct counted counted = count(call_frames, (any_function *)mortisevane_frames_listened);
    expect(frames_answer.number == 0 && frames_answer.count == 128 && frames_answer.masks[7] == 0xFFFF, operation, input);
    tell_export(operation, input, counted);
}

typedef struct mortisevane_mirrored mirror_function(struct mortisevane_mirror mirror, uint32_t packet);
static struct mortisevane_mirror mirror;
static struct mortisevane_mirrored mirror_answer;
static uint32_t packet;

static void call_mirror(any_function *export)
{
    mirror_answer = ((mirror_function *)export)(mirror, packet);
}

static void mirror_step(const char *input, uint32_t sent, uint32_t sum_register, uint32_t talking)
{
    mirror.sum_register = 0x400116;
    packet = sent;
    struct counted counted = count(call_mirror, (any_function *)mortisevane_mirror_step);
    expect(mirror_answer.number == 0 && mirror_answer.mirror.sum_register == sum_register &&
            mirror_answer.mirror.talking == talking, "mirror_step", input);
    tell_export("mirror_step", input, counted);
}

static void mirror_steps(void)
{
    mirror_step("a packet that is summed", 0x01000010, 0x400106, 0);
    mirror_step("the checksum that makes it talk", 0x00400116, 0x400116, 1);
}

/* ---- Memory that is lent ---- */

/* The words of calls; before there are any, the words of fragments. */
static uint32_t memory[MORTISEVANE_CALL_WORDS];
/* The texts of chains. */
static uint8_t texts[MORTISEVANE_CHAIN_BYTES];

/* ---- Numeric pages ---- */

typedef struct mortisevane_page_read page_function(uint32_t set, uint32_t kind, uint32_t check, const uint32_t *words,
        size_t words_length, uint8_t *text, size_t text_length);
static struct mortisevane_page_read page_answer;
static struct mortisevane_written page;
static uint32_t page_set;

static void call_page(any_function *export)
{
    page_answer = ((page_function *)export)(page_set, MORTISEVANE_VECTOR_STANDARD, page.check, memory, (size_t)page.words,
            texts, MORTISEVANE_PAGE_CHARACTERS);
}

/* The text has as many characters as eight words hold, the spaces at its end with them. */
static void numeric_read(const char *input, uint32_t set, const char *text, size_t spaces)
{
    struct mortisevane_numbering numbering = { 0, 0, 0 };

    page_set = set;
    page = mortisevane_numeric_write(set, (const uint8_t *)text, MORTISEVANE_PAGE_CHARACTERS, MORTISEVANE_VECTOR_STANDARD,
            numbering, memory, MORTISEVANE_PAGE_WORDS);
    expect(page.number == 0 && page.words == MORTISEVANE_PAGE_WORDS, "numeric_write", input);
    struct counted counted = count(call_page, (any_function *)mortisevane_numeric_read);
    expect(page_answer.number == 0 && page_answer.characters == MORTISEVANE_PAGE_CHARACTERS &&
            page_answer.spaces_at_end == spaces && memcmp(texts, text, MORTISEVANE_PAGE_CHARACTERS) == 0, "numeric_read",
            input);
    tell_export("numeric_read", input, counted);
}

static void pages(void)
{
    numeric_read("8 words", MORTISEVANE_SET_STANDARD, "01234567890123456789012345678901234567-][", 0);
    numeric_read("8 words, 4 spaces at the end, option on", MORTISEVANE_SET_CHINESE,
            "0123456789ABCDE0123456789ABCDE0123456    ", 4);
}

/* ---- Chains ---- */

enum {
    ADDRESS = 3,
    OTHERS = 7,
    MESSAGE_NUMBER = 5,
    OTHER_CHARACTERS = 8,
    OTHER_LARGEST = 2,
    /* As many as three fragments of 85 words hold. The first of their places is the signature's. */
    CHARACTERS = 3 * MORTISEVANE_FRAGMENT_CHARACTERS - 1,
    FIRST_CHARACTERS = MORTISEVANE_FRAGMENT_CHARACTERS - 1,
    CHARACTER_KINDS = 127,
    FILL = 0x03
};

typedef struct mortisevane_chain_step step_function(struct mortisevane_chains chains, uint8_t *buffer,
        size_t buffer_length, uint32_t address, const uint32_t *words, size_t words_length);
static struct mortisevane_chains chains;
static struct mortisevane_chain_answer chain_answer;
static const uint32_t *fragment;

static void call_step(any_function *export)
{
    struct mortisevane_chain_step step = ((step_function *)export)(chains, texts, sizeof texts, ADDRESS, fragment,
            MORTISEVANE_FRAGMENT_WORDS);

    chains = step.chains;
    chain_answer = step.answer;
}

/* The characters that a text can have, from the last to the first, over and over. */
static uint8_t character_at(size_t place)
{
    uint8_t character = (uint8_t)(CHARACTER_KINDS - place % CHARACTER_KINDS);

    return character <= FILL ? character - 1 : character;
}

/* Cuts a text of so many characters into the memory. */
static void cut(size_t characters, size_t largest)
{
    struct mortisevane_marks marks = { MESSAGE_NUMBER, 1, 0 };

    for (size_t place = 0; place < characters; place++)
        texts[place] = character_at(place);
    struct mortisevane_text_cut text = mortisevane_text_cut(texts, characters, marks, largest, memory,
            MORTISEVANE_CALL_WORDS);
    expect(text.number == 0 && text.fragments == 3 && text.words == 3 * largest, "text_cut", "3 fragments");
}

/* Chains of the addresses after the one that is looked at, each with its first fragment. */
static void open_others(void)
{
    cut(OTHER_CHARACTERS, OTHER_LARGEST);
    for (uint32_t other = 1; other <= OTHERS; other++) {
        struct mortisevane_chain_step step = mortisevane_chain_step(chains, texts, sizeof texts, ADDRESS + other, memory,
                OTHER_LARGEST);
        expect(step.answer.number == 0 && step.answer.begun == 1, "chain_step", "another chain");
        chains = step.chains;
    }
}

/* The next fragment of the text; the chain is the last of the eight slots. */
static void chain_step(const char *input, uint32_t place, uint64_t characters)
{
    struct mortisevane_chains before = chains;
    bool is_last = characters == CHARACTERS;

    fragment = memory + place * MORTISEVANE_FRAGMENT_WORDS;
    uint32_t with_nothing = ticks_of(call_step, count_nothing);
    chains = before;
    struct counted counted = counted_of(ticks_of(call_step, (any_function *)mortisevane_chain_step), with_nothing);
    uint64_t told = is_last ? chain_answer.characters : chains.slots[OTHERS].characters;
    expect(chain_answer.number == 0 && chain_answer.begun == (place == 0) && chain_answer.complete == is_last &&
            told == characters, "chain_step", input);
    tell_with_caller("chain_step", input, counted);
}

static void chain_steps(void)
{
    open_others();
    cut(CHARACTERS, MORTISEVANE_FRAGMENT_WORDS);
    memset(texts, 0, sizeof texts);
    chain_step("a first fragment, 85 words, 7 others open", 0, FIRST_CHARACTERS);
    chain_step("one in the middle, 85 words, 7 others open", 1, FIRST_CHARACTERS + MORTISEVANE_FRAGMENT_CHARACTERS);
    chain_step("the last, 85 words, 7 others open", 2, CHARACTERS);
    for (size_t place = 0; place < CHARACTERS; place++)
        expect(texts[chain_answer.place + place] == character_at(place), "chain_step", "the text");
}

/* ---- Calls ---- */

enum {
    PHASE_A = 0,
    PHASES = 4,
    ALL_CALLS = 0xFF,
    MESSAGE_BITS = 0x155555,
    FIRST_VECTOR = 2,
    LARGEST_START = 3,
    GROUP_START = 10,
    GROUP_WORDS = 78,
    PHASE_START = 4,
    PHASE_WORDS = 84
};

typedef struct mortisevane_call_hearing hear_function(struct mortisevane_calls calls, uint32_t *memory,
        size_t memory_length, uint32_t bits);
typedef struct mortisevane_frame_end end_function(struct mortisevane_calls calls, const uint32_t *memory,
        size_t memory_length);
static struct mortisevane_calls calls, incomplete;
static struct mortisevane_call_heard heard;
static uint32_t end_number;

static void call_hear(any_function *export)
{
    struct mortisevane_call_hearing hearing = ((hear_function *)export)(calls, memory, MORTISEVANE_CALL_WORDS, packet);

    calls = hearing.calls;
    heard = hearing.answer;
}

static void call_end(any_function *export)
{
    struct mortisevane_frame_end end = ((end_function *)export)(calls, memory, MORTISEVANE_CALL_WORDS);

    calls = end.calls;
    end_number = end.number;
    incomplete = end.incomplete;
}

/* Opens a call of user address 0 (Table 30), with its alphanumeric vector (Table 36). */
static void open_call(uint32_t phase, uint32_t vector, uint32_t words, uint32_t start)
{
    struct mortisevane_call_opening opening = mortisevane_call_open(calls, 0x01000000 | phase << 21 | vector);

    expect(opening.answer.number == 0 && opening.answer.opened == 1, "call_open", "a call");
    calls = opening.calls;
    packet = vector << 24 | phase << 21 | MORTISEVANE_VECTOR_ALPHANUMERIC << 16 | words << 7 | start;
    call_hear((any_function *)mortisevane_call_hear);
    expect(heard.number == 0 && heard.is_vector == 1, "call_hear", "a vector");
}

/* In phase A (Table 40). */
static uint32_t message_packet(uint32_t word)
{
    return word << 24 | MESSAGE_BITS;
}

/* A word that must come to these of the open calls, by a bit for each, and complete those. */
static void hear_word(const char *input, uint32_t word, uint32_t hearers, uint32_t completed)
{
    struct mortisevane_calls before = calls;

    packet = message_packet(word);
    uint32_t with_nothing = ticks_of(call_hear, count_nothing);
    calls = before;
    struct counted counted = counted_of(ticks_of(call_hear, (any_function *)mortisevane_call_hear), with_nothing);
    expect(heard.number == 0 && heard.is_vector == 0 && heard.completed == completed, "call_hear", input);
    for (size_t place = 0; place < before.size; place++) {
        const struct mortisevane_call *call = &calls.calls[place];
        bool has_it = memory[mortisevane_call_place(*call) + word - call->start] == MESSAGE_BITS;
        expect(has_it == (hearers >> place & 1), "call_hear", input);
    }
    tell_with_caller("call_hear", input, counted);
}

static void end_frame(const char *input, size_t lacking)
{
    struct mortisevane_calls before = calls;
    uint32_t with_nothing = ticks_of(call_end, count_nothing);

    calls = before;
    struct counted counted = counted_of(ticks_of(call_end, (any_function *)mortisevane_call_end), with_nothing);
    expect(end_number == 0 && incomplete.size == lacking && calls.size == 0, "call_end", input);
    tell_with_caller("call_end", input, counted);
}

static void single_words(void)
{
    calls = mortisevane_calls_fresh();
    end_frame("0 open", 0);
    open_call(PHASE_A, FIRST_VECTOR, MORTISEVANE_FRAGMENT_WORDS, LARGEST_START);
    hear_word("a word, to the one call open, of 85 words", LARGEST_START, 1, 0);
}

/* Eight calls that share the words from 10 to 87: a page for a group. */
static void group_words(void)
{
    const uint32_t last = GROUP_START + GROUP_WORDS - 1;

    calls = mortisevane_calls_fresh();
    for (uint32_t vector = FIRST_VECTOR; vector < FIRST_VECTOR + MORTISEVANE_CALLS; vector++)
        open_call(PHASE_A, vector, GROUP_WORDS, GROUP_START);
    hear_word("a word, to 8 calls", GROUP_START, ALL_CALLS, 0);
    for (uint32_t word = GROUP_START + 1; word < last; word++) {
        packet = message_packet(word);
        call_hear((any_function *)mortisevane_call_hear);
        expect(heard.number == 0 && heard.completed == 0, "call_hear", "a word of 78");
    }
    struct mortisevane_calls nearly = calls;
    end_frame("8 open, each without the last of 78 words", MORTISEVANE_CALLS);
    calls = nearly;
    hear_word("the word that completes 8 calls of 78 words", last, ALL_CALLS, ALL_CALLS);
}

/* Two calls in each of the four phases, of words 4 to 87 all: the word is of phase A, whose calls were opened first. */
static void words_in_all_phases(void)
{
    calls = mortisevane_calls_fresh();
    for (uint32_t phase = PHASE_A; phase < PHASES; phase++) {
        open_call(phase, FIRST_VECTOR, PHASE_WORDS, PHASE_START);
        open_call(phase, FIRST_VECTOR + 1, PHASE_WORDS, PHASE_START);
    }
    hear_word("a word, to 2 of 8 calls in four phases", PHASE_START, 3, 0);
}

/* ---- POCSAG pages ---- */

enum {
    BATCH_WORDS = 17,
    BEFORE_MESSAGE = 2,
    PAGE_WORDS = BATCH_WORDS - BEFORE_MESSAGE,
    /* The address is in frame 0, the first of the batch, and its function is 0. */
    PAGE_ADDRESS = 0x091A28,
    PAGE_BITS = 0x0C7140,
    WORD_BITS = 20,
    CODE_BITS = 4,
    CHARACTER_BITS = 7,
    TEXT_CHARACTERS = 40
};

/* Their words, as they are sent. */
static const uint32_t address_word = 0x2468A13F, message_word = 0x81471A86;
/* Which bits of each word come wrong. */
static const uint32_t two_wrong = 0x80010000;

static uint32_t batch[BATCH_WORDS], wrong_bits[BATCH_WORDS];
static size_t batch_words;

static uint32_t word_sent(size_t place)
{
    return place == 0 ? (uint32_t)MORTISEVANE_POCSAG_SYNC : place < BEFORE_MESSAGE ? address_word : message_word;
}

static void receive_batch(uint32_t wrong)
{
    for (size_t place = 0; place < BATCH_WORDS; place++)
        batch[place] = word_sent(place) ^ wrong;
}

typedef uint32_t mend_function(uint32_t *words, size_t words_length, uint32_t *bits, size_t bits_length);
static uint32_t mend_number;

static void call_mend(any_function *export)
{
    mend_number = ((mend_function *)export)(batch + BATCH_WORDS - batch_words, batch_words, wrong_bits, BATCH_WORDS);
}

/* The last words of a batch, so many. */
static void pocsag_mend(const char *input, size_t words, uint32_t wrong, uint32_t bits)
{
    batch_words = words;
    receive_batch(wrong);
    struct counted counted = count(call_mend, (any_function *)mortisevane_pocsag_mend);
    expect(mend_number == 0, "pocsag_mend", input);
    for (size_t place = 0; place < words; place++) {
        size_t in_batch = BATCH_WORDS - words + place;
        expect(batch[in_batch] == word_sent(in_batch) && wrong_bits[place] == bits, "pocsag_mend", input);
    }
    tell_export("pocsag_mend", input, counted);
}

static void words_mended(void)
{
    pocsag_mend("1 word whole", 1, 0, 0);
    pocsag_mend("17 words whole", BATCH_WORDS, 0, 0);
    pocsag_mend("17 words with two wrong bits", BATCH_WORDS, two_wrong, 2);
}

typedef struct mortisevane_pocsag_heard batch_function(struct mortisevane_pocsag_reader reader, const uint32_t *words,
        size_t words_length, uint32_t *lent, size_t lent_length);
static struct mortisevane_pocsag_reader reader;
static struct mortisevane_pocsag_page page_ended;
static uint32_t batch_number;
static mortisevane_size batch_taken;

static void call_batch(any_function *export)
{
    struct mortisevane_pocsag_heard told = ((batch_function *)export)(reader, batch, BATCH_WORDS, memory,
            MORTISEVANE_CALL_WORDS);

    reader = told.reader;
    page_ended = told.page;
    batch_number = told.number;
    batch_taken = told.taken;
}

static void pocsag_hear(const char *input, uint32_t wrong, uint32_t bits)
{
    static const struct mortisevane_pocsag_reader fresh;

    receive_batch(wrong);
    memset(memory, 0, sizeof memory);
    uint32_t with_nothing = ticks_of(call_batch, count_nothing);
    reader = fresh;
    struct counted counted = counted_of(ticks_of(call_batch, (any_function *)mortisevane_pocsag_hear), with_nothing);
    expect(batch_number == 0 && batch_taken == BATCH_WORDS && page_ended.is_ended == 0, "pocsag_hear", input);
    expect(reader.is_open == 1 && reader.address == PAGE_ADDRESS && reader.words == PAGE_WORDS &&
            reader.mended == bits * (BATCH_WORDS - 1), "pocsag_hear", input);
    for (size_t place = 0; place < PAGE_WORDS; place++)
        expect(memory[place] == PAGE_BITS, "pocsag_hear", input);
    tell_with_caller("pocsag_hear", input, counted);
}

static void batches(void)
{
    pocsag_hear("a batch with a page of 15 words", 0, 0);
    pocsag_hear("the same, two bits of each word wrong", two_wrong, 2);
}

typedef struct mortisevane_pocsag_text text_function(uint32_t kind, const uint32_t *words, size_t words_length,
        uint8_t *text, size_t text_length);
static struct mortisevane_pocsag_text text_answer;
static uint32_t text_kind;
static size_t text_words;

static void call_text(any_function *export)
{
    text_answer = ((text_function *)export)(text_kind, memory, text_words, texts, sizeof texts);
}

/* The text of forty characters fills its words, with so many bits of each character, the lowest first. */
static void pocsag_read(const char *input, uint32_t kind, const char *text, uint32_t bits)
{
    text_kind = kind;
    text_words = TEXT_CHARACTERS * bits / WORD_BITS;
    memset(memory, 0, sizeof memory);
    for (size_t place = 0; place < TEXT_CHARACTERS * bits; place++) {
        uint32_t bit = (uint32_t)text[place / bits] >> place % bits & 1;
        memory[place / WORD_BITS] |= bit << place % WORD_BITS;
    }
    struct counted counted = count(call_text, (any_function *)mortisevane_pocsag_read);
    expect(text_answer.number == 0 && text_answer.characters == TEXT_CHARACTERS && text_answer.fill_at_end == 0 &&
            memcmp(texts, text, TEXT_CHARACTERS) == 0, "pocsag_read", input);
    tell_export("pocsag_read", input, counted);
}

static void page_texts(void)
{
    pocsag_read("numeric, 8 words", MORTISEVANE_POCSAG_TEXT_NUMERIC, "0123456789012345678901234567890123456789", CODE_BITS);
    pocsag_read("text, 14 words", MORTISEVANE_POCSAG_TEXT_SEVEN_BIT, "Bay 12, shelf 4: 2 boxes; bay 13: 1 box.",
            CHARACTER_BITS);
}

/* ---- All of it, or one part where an argument names it ---- */

static const struct part {
    const char *name;
    void (*count)(void);
} parts[] = {
    { "addresses", addresses }, { "frames", frames_listened }, { "mirror", mirror_steps }, { "pages", pages },
    { "chains", chain_steps }, { "calls", single_words }, { "group", group_words }, { "phases", words_in_all_phases },
    { "mending", words_mended }, { "batches", batches }, { "texts", page_texts }
};

int main(int count, char **arguments)
{
    start_clock();
    calibrate();
    for (size_t place = 0; place < sizeof parts / sizeof *parts; place++) {
        if (count < 2 || strcmp(arguments[1], parts[place].name) == 0)
            parts[place].count();
    }
    return 0;
}
