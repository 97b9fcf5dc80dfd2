/*
 * Mortisevane: host logic for belt pagers built round the PCD5008 FLEX decoder.
 *
 * Written by `tools/write-exports` from the Rattle source, in which every function is proved; the tests fail where the
 * two differ. Link with libmortisevane.a (tools/build-library).
 *
 * Every function takes any input and always returns. Where an answer has a `number`, it is 0, or the number of the
 * refusal, and what the answer would tell otherwise is then 0; memory that was lent is then as it was, and so is
 * state, unless the function says otherwise. A row is a pointer and how many it has; where it has none the pointer
 * may be any that is not null and is aligned. Memory that is lent for writing shares no byte with anything else that
 * is lent to the same call. Nothing is kept between calls: what is to be remembered goes in and comes back as a
 * struct, which zeros make fresh.
 *
 * The structs are laid out alike on every machine, 8-bit to 64-bit numbers each at a multiple of its own size: the end
 * of this header holds the compiler to that. A length that is a parameter is as wide as the machine's own, a
 * `mortisevane_size` in a struct always 64 bits.
 *
 * In the comments, "01" is the paper that defines the pager host, and S8.x and Table n are the PCD5008 data sheet's.
 */
#ifndef MORTISEVANE_H
#define MORTISEVANE_H

#include <stddef.h>
#include <stdint.h>

#ifdef __cplusplus
extern "C" {
#endif

/* A length, a count or a place in a struct. It is as wide on a board of 32 bits as anywhere else. */
typedef uint64_t mortisevane_size;

/*
 * The refusals, by their numbers: 1 to 18 are the paper's, and those from 19 on came with later
 * requests. A `number` of 0 says that nothing was refused.
 */
enum mortisevane_refused_numbers {
    /* A lent buffer is too short for what is to stand in it. */
    MORTISEVANE_REFUSED_ROOM = 1,
    /* A register or a record that was handed back is outside its limits. */
    MORTISEVANE_REFUSED_STATE = 2,
    /*
     * A CAPCODE text that is not in the form, and the byte where it goes wrong is no digit; a
     * letter that no CAPCODE has.
     */
    MORTISEVANE_REFUSED_TEXT = 3,
    /* A CAPCODE of an all-phase letter, I to L or Z. */
    MORTISEVANE_REFUSED_TYPE = 4,
    /* An address, or words, of no accepted range. */
    MORTISEVANE_REFUSED_RANGE = 5,
    /* An address below the offset of its letter. */
    MORTISEVANE_REFUSED_OFFSET = 6,
    /*
     * A packet that is not to be sent or of another kind, a field too large, a bit set that is
     * printed as 0.
     */
    MORTISEVANE_REFUSED_PACKET = 7,
    /* An address number over 31. */
    MORTISEVANE_REFUSED_ADDRESS = 8,
    /* Too few or too many words, too many addresses, or a span outside the limits. */
    MORTISEVANE_REFUSED_SIZE = 9,
    /* A word in error. */
    MORTISEVANE_REFUSED_DAMAGED = 10,
    /* K is not the sum of the words. */
    MORTISEVANE_REFUSED_CHECKSUM = 11,
    /* No slot or no call is free. */
    MORTISEVANE_REFUSED_FULL = 12,
    /* A later fragment, or a drop, where no chain of its key is open. */
    MORTISEVANE_REFUSED_NO_CHAIN = 13,
    /* A fragment that is not the next one; an address, a vector or a word of a call that has it. */
    MORTISEVANE_REFUSED_OUT_OF_TURN = 14,
    /* A text that is longer than the room for it. */
    MORTISEVANE_REFUSED_TOO_LONG = 15,
    /* The last fragment came, and the total is not that of the message. */
    MORTISEVANE_REFUSED_SIGNATURE = 16,
    /* A vector or a word of no open call. */
    MORTISEVANE_REFUSED_NO_CALL = 17,
    /* A character that is not in the set or is over 7FH, or ETX in a text to write. */
    MORTISEVANE_REFUSED_CHARACTER = 18,
    /* A CAPCODE text that goes wrong at a digit before its letter. */
    MORTISEVANE_REFUSED_DIGIT_BEFORE_LETTER = 19,
    /* A CAPCODE text that begins with a 4, which no CAPCODE does: no digit means 4. */
    MORTISEVANE_REFUSED_LEADING_FOUR = 20,
    /* A CAPCODE text that goes wrong at a digit after its letter, or stops too soon. */
    MORTISEVANE_REFUSED_DIGIT_AFTER_LETTER = 21,
    /* A POCSAG word with more wrong bits than can be mended; a page with such a word in it. */
    MORTISEVANE_REFUSED_BEYOND_REPAIR = 25,
    /* A POCSAG word that does not follow a sync word; a page whose end was not heard. */
    MORTISEVANE_REFUSED_NO_SYNC = 26,
};

/* The classes of addresses. */
enum mortisevane_class_numbers {
    MORTISEVANE_CLASS_SHORT = 1,
    MORTISEVANE_CLASS_INFORMATION_SERVICE = 2,
    MORTISEVANE_CLASS_NETWORK = 3,
    MORTISEVANE_CLASS_OPERATOR = 4,
    MORTISEVANE_CLASS_SET_12 = 5,
    MORTISEVANE_CLASS_SET_13 = 6,
    MORTISEVANE_CLASS_SET_14 = 7,
    MORTISEVANE_CLASS_SET_23_COUNTRY = 8,
    MORTISEVANE_CLASS_SET_23_INFORMATION_SERVICE = 9,
};

/*
 * The IDs of packets, the highest byte of their 32 bits. The same ID means one thing to the decoder
 * and another from it.
 */
enum mortisevane_packet_numbers {
    /* What the host sends (Table 2). */
    MORTISEVANE_PACKET_CHECKSUM = 0x00,
    MORTISEVANE_PACKET_CONFIGURATION = 0x01,
    MORTISEVANE_PACKET_CONTROL = 0x02,
    MORTISEVANE_PACKET_ALL_FRAME_MODE = 0x03,
    MORTISEVANE_PACKET_RECEIVER_LINES = 0x0F,
    MORTISEVANE_PACKET_RECEIVER_OFF = 0x10,
    MORTISEVANE_PACKET_WARM_UP_1 = 0x11,
    MORTISEVANE_PACKET_WARM_UP_2 = 0x12,
    MORTISEVANE_PACKET_WARM_UP_3 = 0x13,
    MORTISEVANE_PACKET_WARM_UP_4 = 0x14,
    MORTISEVANE_PACKET_WARM_UP_5 = 0x15,
    MORTISEVANE_PACKET_SYNC_3200 = 0x16,
    MORTISEVANE_PACKET_SYNC_1600 = 0x17,
    MORTISEVANE_PACKET_DATA_3200 = 0x18,
    MORTISEVANE_PACKET_DATA_1600 = 0x19,
    MORTISEVANE_PACKET_SHUT_DOWN_1 = 0x1A,
    MORTISEVANE_PACKET_SHUT_DOWN_2 = 0x1B,
    MORTISEVANE_PACKET_FIRST_SPECIAL = 0x1C,
    MORTISEVANE_PACKET_LAST_SPECIAL = 0x1F,
    MORTISEVANE_PACKET_FIRST_FRAMES = 0x20,
    MORTISEVANE_PACKET_LAST_FRAMES = 0x27,
    MORTISEVANE_PACKET_ADDRESS_ENABLE = 0x78,
    MORTISEVANE_PACKET_FIRST_USER_ADDRESS = 0x80,
    MORTISEVANE_PACKET_LAST_USER_ADDRESS = 0x8F,
    /* What the decoder sends (Table 3). A vector's or message word's ID is its word number. */
    MORTISEVANE_PACKET_ADDRESS = 0x01,
    MORTISEVANE_PACKET_FIRST_VECTOR = 0x02,
    MORTISEVANE_PACKET_FIRST_MESSAGE = 0x03,
    MORTISEVANE_PACKET_LAST_WORD = 0x57,
    MORTISEVANE_PACKET_STATUS = 0x7F,
    MORTISEVANE_PACKET_PART_ID = 0xFF,
};

/* The types of vectors. */
enum mortisevane_vector_numbers {
    /* The vector types V (Tables 32, 33 and 35, S8.7.7). */
    MORTISEVANE_VECTOR_SECURE = 0,
    MORTISEVANE_VECTOR_INSTRUCTION = 1,
    MORTISEVANE_VECTOR_SHORT = 2,
    MORTISEVANE_VECTOR_STANDARD = 3,
    MORTISEVANE_VECTOR_SPECIAL = 4,
    MORTISEVANE_VECTOR_ALPHANUMERIC = 5,
    MORTISEVANE_VECTOR_HEX = 6,
    MORTISEVANE_VECTOR_NUMBERED = 7,
};

/* The types of short messages. */
enum mortisevane_short_message_numbers {
    /* The message types t (Table 34). */
    MORTISEVANE_SHORT_MESSAGE_CHARACTERS = 0,
    MORTISEVANE_SHORT_MESSAGE_SOURCE = 1,
    MORTISEVANE_SHORT_MESSAGE_NUMBERED = 2,
    MORTISEVANE_SHORT_MESSAGE_SPARE = 3,
};

/* The types of short instructions. */
enum mortisevane_instruction_numbers {
    /* The instruction type i (Table 38) that assigns a temporary address. */
    MORTISEVANE_INSTRUCTION_TEMPORARY = 0,
};

/*
 * The sets of characters of numeric pages, the two columns of Table 39. Nothing in a page says by
 * which its sender wrote it.
 */
enum mortisevane_set_numbers {
    /* Table 39 with the option off: digits, `?` for the spare code, `U`, space, `-`, `]`, `[`. */
    MORTISEVANE_SET_STANDARD = 0,
    /*
     * Table 39 with the option of the People's Republic of China on: A to E for `?`, `U`, `-`, `]`,
     * `[`.
     */
    MORTISEVANE_SET_CHINESE = 1,
};

/* The two words of POCSAG that are no page's. */
enum mortisevane_pocsag_numbers {
    /* 02, item 5: "sync word 7CD215D8": it stands before each batch. */
    MORTISEVANE_POCSAG_SYNC = 2094142936,
    /*
     * 02, item 5: "idle word 7A89C197": it stands where there is nothing to send, and ends a page.
     */
    MORTISEVANE_POCSAG_IDLE = 2055848343,
};

/* How the text of a POCSAG page is read. Nothing in a page says how its sender wrote it. */
enum mortisevane_pocsag_text_numbers {
    /* Four bits a character, the set of Table 39 with the option off. */
    MORTISEVANE_POCSAG_TEXT_NUMERIC = 0,
    /* Four bits a character, the set of Table 39 with the option on. */
    MORTISEVANE_POCSAG_TEXT_NUMERIC_CHINESE = 1,
    /* Seven bits a character. */
    MORTISEVANE_POCSAG_TEXT_SEVEN_BIT = 2,
};

/* Limits, and how much memory is to be lent. */
enum mortisevane_limits {
    /* Chains that can be open at a time. */
    MORTISEVANE_SLOTS = 8,
    /* The longest text. */
    MORTISEVANE_TEXT_CHARACTERS = 1008,
    /* The most words of a fragment. */
    MORTISEVANE_FRAGMENT_WORDS = 85,
    /* The most words of a numeric page. */
    MORTISEVANE_PAGE_WORDS = 8,
    /* Calls that can be open at a time. */
    MORTISEVANE_CALLS = 8,
    /* The memory that calls are lent, in words. */
    MORTISEVANE_CALL_WORDS = 680,
    /* The memory that chains are lent, in bytes. */
    MORTISEVANE_CHAIN_BYTES = MORTISEVANE_SLOTS * MORTISEVANE_TEXT_CHARACTERS,
    /* The most characters of a fragment. */
    MORTISEVANE_FRAGMENT_CHARACTERS = 3 * (MORTISEVANE_FRAGMENT_WORDS - 1),
    /* The most words of a text that is cut. */
    MORTISEVANE_CUT_WORDS = 2 * (MORTISEVANE_TEXT_CHARACTERS / 3 + 1),
    /* The most characters of a numeric page. */
    MORTISEVANE_PAGE_CHARACTERS = (21 * MORTISEVANE_PAGE_WORDS - 2) / 4,
    /* The longest CAPCODE: frame and collapse, the letter, ten digits. */
    MORTISEVANE_CAPCODE_BYTES = 3 + 1 + 1 + 10,
};

/*
 * Addresses and their words, as C and Rust link them: numbers and structs by value. Every function
 * takes any input. `number` is 0, or 01's number of the refusal; every other field is then 0.
 */

/* The class of an address, 1 to 9 by 01's rows. */
struct mortisevane_class {
    uint32_t number;
    uint32_t address_class;
};

/* One word or two; `second` is 0 where there is none. */
struct mortisevane_words {
    uint32_t number;
    uint32_t count;
    uint32_t first;
    uint32_t second;
};

/* An address. */
struct mortisevane_found {
    uint32_t number;
    uint64_t address;
};

/*
 * The class of an address.
 * Takes an address, any number.
 * Answers its class, one of MORTISEVANE_CLASS_..
 * Refuses 5.
 */
struct mortisevane_class mortisevane_address_class(uint64_t address);

/*
 * The words of an address, for the decoder's address packets (Table 24).
 * Takes an address, any number.
 * Answers how many words there are, 1 for a short address and 2 for a long one, and the words.
 * Refuses 5.
 */
struct mortisevane_words mortisevane_address_words(uint64_t address);

/*
 * The address that one word belongs to.
 * Takes a word, any number.
 * Answers the short address.
 * Refuses 5: a word of no accepted address.
 */
struct mortisevane_found mortisevane_word_address(uint32_t word);

/*
 * The address that two words belong to.
 * Takes the first and the second word, any numbers.
 * Answers the long address.
 * Refuses 5: words of no accepted address.
 */
struct mortisevane_found mortisevane_pair_address(uint32_t first, uint32_t second);

/*
 * CAPCODEs, as C and Rust link them: numbers, slices and structs by value. Every function takes any
 * input. `number` is 0, or the number of the refusal; every other field is then 0, but for the
 * place where a text goes wrong.
 */

/*
 * A CAPCODE: its letter, the three frame digits of U to Y (0 with A to H), its collapse and
 * address; and the phase (0 to 3 for A to D, 4 for any-phase) and base frame that it assigns. With
 * a `number` of 3 or 19 to 21 `place` is that of the first byte, counted from 0, at which no
 * correct text could go on: the text's length where it only stops too soon, and 15 at most. Else it
 * is 0.
 */
struct mortisevane_capcode {
    uint32_t number;
    uint8_t letter;
    uint32_t frame;
    uint32_t collapse;
    uint8_t phase;
    uint8_t base;
    uint8_t place;
    uint64_t address;
};

/* A phase (0 to 3 for A to D, 4 for any-phase) and a base frame. */
struct mortisevane_assignment {
    uint32_t number;
    uint8_t phase;
    uint8_t base;
};

/* How many bytes of a lent buffer were written. */
struct mortisevane_length {
    uint32_t number;
    mortisevane_size length;
};

/*
 * What a CAPCODE text says.
 * Takes the text, without a line's end.
 * Answers its letter, frame digits, collapse and address, and the phase and base frame that it
 * assigns.
 * Refuses 3, 19, 20, 21, with the place at which the text goes wrong, then 4, 5, 6, the first that
 * applies. By the byte at that place 20 is a 4 at the start, 19 any other digit before the letter,
 * 21 a digit after the letter, 3 any other byte; a text that only stops too soon is 21.
 */
struct mortisevane_capcode mortisevane_capcode_read(const uint8_t *text, size_t text_length);

/*
 * The phase and base frame of a CAPCODE.
 * Takes the letter as a character, the frame (0 with A to H), the collapse and the address.
 * Answers the phase (0 to 3 for A to D, 4 for any-phase) and the base frame.
 * Refuses 3, 4, 5, 6, 7, the first that applies. Here 3 is a letter that no CAPCODE has; 7 is a
 * collapse over 5, a frame over 127, or a frame that is not 0 with A to H.
 */
struct mortisevane_assignment mortisevane_capcode_assign(uint8_t letter, uint32_t frame,
        uint32_t collapse, uint64_t address);

/*
 * The text of a CAPCODE, written at the start of a lent buffer.
 * Takes the letter as a character, the frame (0 with A to H), the collapse, the address and the
 * buffer, for which MORTISEVANE_CAPCODE_BYTES are always enough.
 * Answers how many bytes were written; no zero byte stands after them.
 * Refuses 3, 4, 5, 6, 7, as mortisevane_capcode_assign does, and last 1; the buffer is then as it
 * was.
 */
struct mortisevane_length mortisevane_capcode_print(uint8_t letter, uint32_t frame,
        uint32_t collapse, uint64_t address, uint8_t *out, size_t out_length);

/*
 * Frames listened to and the wait for a temporary address, as C and Rust link them: numbers and
 * structs by value. Every function takes any input. `number` is 0, or 01's number of the refusal;
 * every other field is then 0.
 */

/* A wait in frames. */
struct mortisevane_wait {
    uint32_t number;
    uint32_t frames;
};

/*
 * One address as far as frames go: its base frame and its collapse, wider than any that is
 * accepted, so that one too large is refused and not cut.
 */
struct mortisevane_listener {
    uint32_t frame;
    uint32_t collapse;
};

/* The addresses of a pager: of sixteen places the first `count` are looked at. */
struct mortisevane_listeners {
    struct mortisevane_listener listeners[16];
    uint32_t count;
};

/* The number of frames listened to, and the masks of packets 20H to 27H. */
struct mortisevane_frames {
    uint32_t number;
    uint32_t count;
    uint16_t masks[8];
};

/*
 * The wait until the designated frame of a temporary address comes next (S8.8.4).
 * Takes the present frame and the designated one, 0 to 127.
 * Answers the wait, 1 to 128 frames. To the present frame it is 128: its next coming, in the
 * following cycle.
 * Refuses 7: a frame over 127.
 */
struct mortisevane_wait mortisevane_frames_wait(uint32_t from, uint32_t to);

/*
 * The frames that a pager with these addresses listens to.
 * Takes the base frame and the collapse of each address, and how many there are.
 * Answers the number of frames, and masks[i], the frame bits of packet 20H + i.
 * Refuses 7 and then 9: a frame over 127 or a collapse over 5; over 16 addresses.
 */
struct mortisevane_frames mortisevane_frames_listened(struct mortisevane_listeners listeners);

/*
 * Packets, as C and Rust link them: building, reading, and what may be sent. Every function takes
 * any input, and its contract is that of the function it calls: `number` is 0, or 01's number of
 * the refusal, and every other field is then 0.
 */

/* The checksum packet (Table 9): CV, 24 bits. */
struct mortisevane_checksum {
    uint32_t value;
};

/* 32 bits: the ID in the highest byte, 24 data bits after it (Table 1). */
struct mortisevane_packet {
    uint32_t bits;
};

/* The packet that was built; `number` is 0, or 7 and the packet's bits are 0. */
struct mortisevane_built {
    uint32_t number;
    struct mortisevane_packet packet;
};

/*
 * The configuration packet (Table 5): OFD (Table 4) and SP (Table 6), 0 to 3; SME, MOT, COD, MTE
 * and LBP.
 */
struct mortisevane_configuration {
    uint32_t oscillator;
    uint32_t polarity;
    uint32_t synchronous_mode;
    uint32_t maximum_off_time;
    uint32_t clock_output_disable;
    uint32_t minute_timer;
    uint32_t low_battery_polarity;
};

/*
 * The control packet (Table 11): FF, a bit for each of frames 0 to 7; SPM; PS (Table 10), 0 to 3;
 * SBI, MTC and ON.
 */
struct mortisevane_control {
    uint32_t forced_frames;
    uint32_t single_phase;
    uint32_t phase;
    uint32_t block_information;
    uint32_t minute_timer_clear;
    uint32_t on;
};

/* The all frame mode packet (Table 56): DAF; FAF; DTA, a bit for each temporary address. */
struct mortisevane_all_frame_mode {
    uint32_t decrement;
    uint32_t force;
    uint32_t decrement_temporary;
};

/* The receiver line control packet (Table 19): FRS and CLS, a bit for each of lines S0 to S7. */
struct mortisevane_receiver_lines {
    uint32_t forced;
    uint32_t settings;
};

/*
 * A receiver shut-down packet (Tables 20 and 21): s, 0 for shut-down 1 and 1 for shut-down 2; SE;
 * LBC; CLS, a bit for each line; ST, in steps of 625 microseconds.
 */
struct mortisevane_shut_down {
    uint32_t setting;
    uint32_t enable;
    uint32_t low_battery_check;
    uint32_t lines;
    uint32_t time;
};

/*
 * A frame assignment packet (Tables 28 and 29): f, 0 to 7; AF, a bit for each of its sixteen
 * frames.
 */
struct mortisevane_frame_assignment {
    uint32_t range;
    uint32_t frames;
};

/*
 * A user address assignment packet (Table 26): a, 0 to 15; LA; TOA; A, an address word of 21 bits.
 */
struct mortisevane_user_address {
    uint32_t location;
    uint32_t long_address;
    uint32_t tone_only;
    uint32_t word;
};

/* The user address enable packet (Table 27): UAE, a bit for each location. */
struct mortisevane_address_enable {
    uint32_t enabled;
};

/* The part ID packet (Table 8): MDL, CID and REV. */
struct mortisevane_part_id {
    uint32_t model;
    uint32_t compatibility;
    uint32_t revision;
};

/* The fields of a checksum packet (Table 9), or its refusal. */
struct mortisevane_checksum_read {
    uint32_t number;
    struct mortisevane_checksum fields;
};

/* The fields of a configuration packet (Table 5), or its refusal. */
struct mortisevane_configuration_read {
    uint32_t number;
    struct mortisevane_configuration fields;
};

/* The fields of a control packet (Table 11), or its refusal. */
struct mortisevane_control_read {
    uint32_t number;
    struct mortisevane_control fields;
};

/* The fields of an all frame mode packet (Table 56), or its refusal. */
struct mortisevane_all_frame_mode_read {
    uint32_t number;
    struct mortisevane_all_frame_mode fields;
};

/* The fields of a receiver line control packet (Table 19), or its refusal. */
struct mortisevane_receiver_lines_read {
    uint32_t number;
    struct mortisevane_receiver_lines fields;
};

/* The fields of a receiver shut-down packet (Table 21), or its refusal. */
struct mortisevane_shut_down_read {
    uint32_t number;
    struct mortisevane_shut_down fields;
};

/* The fields of a frame assignment packet (Table 29), or its refusal. */
struct mortisevane_frame_assignment_read {
    uint32_t number;
    struct mortisevane_frame_assignment fields;
};

/* The fields of a user address assignment packet (Table 26), or its refusal. */
struct mortisevane_user_address_read {
    uint32_t number;
    struct mortisevane_user_address fields;
};

/* The fields of the user address enable packet (Table 27), or its refusal. */
struct mortisevane_address_enable_read {
    uint32_t number;
    struct mortisevane_address_enable fields;
};

/* The fields of the part ID packet (Table 8), or its refusal. */
struct mortisevane_part_id_read {
    uint32_t number;
    struct mortisevane_part_id fields;
};

/*
 * The status packet (Table 12): FIV; f, the frame 0 to 127; SM; LB; c, the cycle 0 to 15; SMU; LBU;
 * MT; EOF; BOE.
 */
struct mortisevane_status {
    uint32_t frame_valid;
    uint32_t frame;
    uint32_t synchronous;
    uint32_t low_battery;
    uint32_t cycle;
    uint32_t synchronous_update;
    uint32_t low_battery_update;
    uint32_t minute;
    uint32_t end_of_frame;
    uint32_t overflow;
};

/* The fields of a status packet, or its refusal. */
struct mortisevane_status_read {
    uint32_t number;
    struct mortisevane_status fields;
};

/*
 * The address packet (Table 30): PA; p, 0 to 3 for A to D; LA; the address number that AI stands
 * for, 0 to 31, the last 16 temporary; TOA; WN, the word number of the vector, 0 where none will
 * come.
 */
struct mortisevane_address {
    uint32_t priority;
    uint32_t phase;
    uint32_t long_address;
    uint32_t address;
    uint32_t tone_only;
    uint32_t vector;
};

/* The fields of an address packet, or its refusal. */
struct mortisevane_address_read {
    uint32_t number;
    struct mortisevane_address fields;
};

/*
 * Where a vector's message words stand: K of a numeric one (Table 31), the number of words, and b.
 * All 0 in a vector that has no message words.
 */
struct mortisevane_span {
    uint32_t check;
    uint32_t words;
    uint32_t start;
};

/*
 * A short message or tone-only vector (Table 34): its message type t; with type 0 the codes of
 * three numeric characters; with 1 and 2 the source S; with 2 the flag R and the message number N;
 * with the spare type 3 its twelve d bits.
 */
struct mortisevane_short_message {
    uint32_t kind;
    uint32_t first;
    uint32_t second;
    uint32_t third;
    uint32_t source;
    uint32_t retrieval;
    uint32_t message;
    uint32_t unread;
};

/*
 * A short instruction (Table 38): its type i; with type 0 the address number of the temporary
 * address and its frame; with a reserved type its eleven d bits.
 */
struct mortisevane_instruction {
    uint32_t kind;
    uint32_t address;
    uint32_t frame;
    uint32_t unread;
};

/* A vector packet: WN; e; p; the vector type V; and what that type brings, the rest being 0. */
struct mortisevane_vector {
    uint32_t word;
    uint32_t damaged;
    uint32_t phase;
    uint32_t kind;
    struct mortisevane_span span;
    struct mortisevane_short_message short_message;
    struct mortisevane_instruction instruction;
};

/* The fields of a vector packet, or its refusal. */
struct mortisevane_vector_read {
    uint32_t number;
    struct mortisevane_vector fields;
};

/* A message packet (Table 40): WN; e; p; the 21 bits i. */
struct mortisevane_message {
    uint32_t word;
    uint32_t damaged;
    uint32_t phase;
    uint32_t bits;
};

/* The fields of a message packet, or its refusal. */
struct mortisevane_message_read {
    uint32_t number;
    struct mortisevane_message fields;
};

/*
 * Builds a checksum packet.
 * Takes its fields.
 * Answers the packet.
 * Refuses 7: a field too large.
 */
struct mortisevane_built mortisevane_build_checksum(struct mortisevane_checksum fields);

/*
 * Builds a configuration packet.
 * Takes its fields.
 * Answers the packet.
 * Refuses 7: a field too large.
 */
struct mortisevane_built mortisevane_build_configuration(struct mortisevane_configuration fields);

/*
 * Builds a control packet.
 * Takes its fields.
 * Answers the packet.
 * Refuses 7: a field too large.
 */
struct mortisevane_built mortisevane_build_control(struct mortisevane_control fields);

/*
 * Builds an all frame mode packet.
 * Takes its fields.
 * Answers the packet.
 * Refuses 7: a field too large.
 */
struct mortisevane_built mortisevane_build_all_frame_mode(struct mortisevane_all_frame_mode fields);

/*
 * Builds a receiver line control packet.
 * Takes its fields.
 * Answers the packet.
 * Refuses 7: a field too large.
 */
struct mortisevane_built mortisevane_build_receiver_lines(struct mortisevane_receiver_lines fields);

/*
 * Builds a receiver shut-down packet.
 * Takes its fields.
 * Answers the packet.
 * Refuses 7: a field too large.
 */
struct mortisevane_built mortisevane_build_shut_down(struct mortisevane_shut_down fields);

/*
 * Builds a frame assignment packet.
 * Takes its fields.
 * Answers the packet.
 * Refuses 7: a field too large.
 */
struct mortisevane_built mortisevane_build_frame_assignment(struct mortisevane_frame_assignment fields);

/*
 * Builds a user address assignment packet.
 * Takes its fields.
 * Answers the packet.
 * Refuses 7: a field too large.
 */
struct mortisevane_built mortisevane_build_user_address(struct mortisevane_user_address fields);

/*
 * Builds a user address enable packet.
 * Takes its fields.
 * Answers the packet.
 * Refuses 7: a field too large.
 */
struct mortisevane_built mortisevane_build_address_enable(struct mortisevane_address_enable fields);

/*
 * Builds a part ID packet.
 * Takes its fields.
 * Answers the packet.
 * Refuses 7: a field too large.
 */
struct mortisevane_built mortisevane_build_part_id(struct mortisevane_part_id fields);

/*
 * Reads a checksum packet.
 * Takes the packet.
 * Answers its fields.
 * Refuses 7: another packet, or a bit set that its table prints as 0.
 */
struct mortisevane_checksum_read mortisevane_read_checksum(uint32_t packet);

/*
 * Reads a configuration packet.
 * Takes the packet.
 * Answers its fields.
 * Refuses 7: another packet, or a bit set that its table prints as 0.
 */
struct mortisevane_configuration_read mortisevane_read_configuration(uint32_t packet);

/*
 * Reads a control packet.
 * Takes the packet.
 * Answers its fields.
 * Refuses 7: another packet, or a bit set that its table prints as 0.
 */
struct mortisevane_control_read mortisevane_read_control(uint32_t packet);

/*
 * Reads an all frame mode packet.
 * Takes the packet.
 * Answers its fields.
 * Refuses 7: another packet, or a bit set that its table prints as 0.
 */
struct mortisevane_all_frame_mode_read mortisevane_read_all_frame_mode(uint32_t packet);

/*
 * Reads a receiver line control packet.
 * Takes the packet.
 * Answers its fields.
 * Refuses 7: another packet, or a bit set that its table prints as 0.
 */
struct mortisevane_receiver_lines_read mortisevane_read_receiver_lines(uint32_t packet);

/*
 * Reads a receiver shut-down packet.
 * Takes the packet.
 * Answers its fields.
 * Refuses 7: another packet, or a bit set that its table prints as 0.
 */
struct mortisevane_shut_down_read mortisevane_read_shut_down(uint32_t packet);

/*
 * Reads a frame assignment packet.
 * Takes the packet.
 * Answers its fields.
 * Refuses 7: another packet, or a bit set that its table prints as 0.
 */
struct mortisevane_frame_assignment_read mortisevane_read_frame_assignment(uint32_t packet);

/*
 * Reads a user address assignment packet.
 * Takes the packet.
 * Answers its fields.
 * Refuses 7: another packet, or a bit set that its table prints as 0.
 */
struct mortisevane_user_address_read mortisevane_read_user_address(uint32_t packet);

/*
 * Reads a user address enable packet.
 * Takes the packet.
 * Answers its fields.
 * Refuses 7: another packet, or a bit set that its table prints as 0.
 */
struct mortisevane_address_enable_read mortisevane_read_address_enable(uint32_t packet);

/*
 * Reads a part ID packet.
 * Takes the packet.
 * Answers its fields.
 * Refuses 7: another packet.
 */
struct mortisevane_part_id_read mortisevane_read_part_id(uint32_t packet);

/*
 * Reads a status packet.
 * Takes the packet.
 * Answers its fields.
 * Refuses 7: another packet.
 */
struct mortisevane_status_read mortisevane_read_status(uint32_t packet);

/*
 * Reads an address packet.
 * Takes the packet.
 * Answers its fields, the address number 0 to 31 among them.
 * Refuses 7 and then 8: another packet or a vector's word number over 87; an index of no address.
 */
struct mortisevane_address_read mortisevane_read_address(uint32_t packet);

/*
 * Reads a vector packet.
 * Takes the packet.
 * Answers its fields.
 * Refuses 7: another packet.
 */
struct mortisevane_vector_read mortisevane_read_vector(uint32_t packet);

/*
 * Reads a message packet.
 * Takes the packet.
 * Answers its fields.
 * Refuses 7: another packet.
 */
struct mortisevane_message_read mortisevane_read_message(uint32_t packet);

/*
 * Whether the host may send a packet.
 * Takes the packet.
 * Answers 0 if it may.
 * Refuses 7.
 */
uint32_t mortisevane_may_send(uint32_t packet);

/*
 * The mirror of the decoder, as C and Rust link it. Every function takes any input, and its
 * contract is that of the function it calls: `number` is 0, or 01's number of the refusal.
 */

/* The register, 24 bits; `talking` is 0 while the decoder sends nothing but its part ID. */
struct mortisevane_mirror {
    uint32_t sum_register;
    uint32_t talking;
};

/*
 * The mirror after what was done; `number` is 0, or the refusal's. After a refusal the mirror is
 * the one that was handed in; `reset`, which is handed none, gives one of zeros.
 */
struct mortisevane_mirrored {
    uint32_t number;
    struct mortisevane_mirror mirror;
};

/*
 * The mirror of a decoder that was reset and told its part ID.
 * Takes the part ID packet.
 * Answers the mirror: the register is the packet's 24 data bits, and the decoder is not talking.
 * Refuses 7: another packet.
 */
struct mortisevane_mirrored mortisevane_mirror_reset(uint32_t packet);

/*
 * The mirror after one packet that the host sent.
 * Takes the mirror and the packet, any 32 bits.
 * Answers the mirror then; after a checksum packet `talking` says whether the decoder talks.
 * Refuses 2: a register over 24 bits.
 */
struct mortisevane_mirrored mortisevane_mirror_step(struct mortisevane_mirror mirror,
        uint32_t packet);

/*
 * The mirror after a run of packets that the host sent.
 * Takes the mirror and the packets, any 32 bits each.
 * Answers the mirror after the last of them.
 * Refuses 2: a register over 24 bits.
 */
struct mortisevane_mirrored mortisevane_mirror_run(struct mortisevane_mirror mirror,
        const uint32_t *packets, size_t packets_length);

/*
 * The checksum packet that makes the decoder talk.
 * Takes the mirror.
 * Answers the packet, to be sent last of a set-up and run through the mirror as every other.
 * Refuses 2: a register over 24 bits.
 */
struct mortisevane_built mortisevane_mirror_closing(struct mortisevane_mirror mirror);

/*
 * The sums of messages, as C and Rust link them. Every function takes any row, and its contract is
 * that of the function it calls.
 */

/*
 * K of a numeric page, 0 to 63: K0 to K3 belong into the vector, K4 and K5 into the first word,
 * whose two lowest bits are taken as 0.
 * Takes the words of the page.
 * Answers K.
 * Refuses nothing.
 */
uint32_t mortisevane_sum_six_bit(const uint32_t *words, size_t words_length);

/*
 * K of a fragment, 0 to 1023: the ten lowest bits of its first word are taken as 0.
 * Takes the words of the fragment.
 * Answers K.
 * Refuses nothing.
 */
uint32_t mortisevane_sum_ten_bit(const uint32_t *words, size_t words_length);

/*
 * The signature of a text with its fill, 0 to 127.
 * Takes the characters, fill with them.
 * Answers the signature.
 * Refuses nothing.
 */
uint32_t mortisevane_sum_signature(const uint8_t *characters, size_t characters_length);

/*
 * Numeric pages, as C and Rust link them. Every function takes any input, and its contract is that
 * of the function it calls: `number` is 0, or 01's number of the refusal, and what was lent is then
 * as it was.
 */

/*
 * What the head of a numbered page says: N, the message number, 0 to 63; R, whether the pager
 * expects its messages to be numbered; S, whether a special format shows it. All 0 with the other
 * kinds.
 */
struct mortisevane_numbering {
    uint32_t message_number;
    uint32_t retrieval;
    uint32_t special_format;
};

/* A page written: K for its vector, and how many words. Both are 0 after a refusal. */
struct mortisevane_written {
    uint32_t number;
    uint32_t check;
    mortisevane_size words;
};

/*
 * A page read: what its head says, how many characters it has, and how many of them are spaces at
 * its end. All are 0 after a refusal.
 */
struct mortisevane_page_read {
    uint32_t number;
    struct mortisevane_numbering numbering;
    mortisevane_size characters;
    mortisevane_size spaces_at_end;
};

/*
 * A text as the words of a numeric page.
 * Takes the set of characters, MORTISEVANE_SET_STANDARD or _CHINESE; the text, characters of that
 * set; the vector's type, MORTISEVANE_VECTOR_STANDARD, _SPECIAL or _NUMBERED; what the head of a
 * numbered page says, all 0 with the others; and memory for the words, for which
 * MORTISEVANE_PAGE_WORDS are always enough.
 * Answers K for the vector and how many words were written, the fewest that hold the text.
 * Refuses 7, 15, 18, the first that applies, and last 1; the memory is then as it was. Here 7 is a
 * set that is neither, a type that is none of the three, or a number that the head has no room for:
 * with a page that is not numbered, any but 0.
 */
struct mortisevane_written mortisevane_numeric_write(uint32_t set,
        const uint8_t *text, size_t text_length, uint32_t kind,
        struct mortisevane_numbering numbering, uint32_t *words, size_t words_length);

/*
 * The words of a numeric page as text, its zeros with it.
 * Takes the set of characters, MORTISEVANE_SET_STANDARD or _CHINESE; the type and the K of the
 * vector; the words; and memory for the text, for which MORTISEVANE_PAGE_CHARACTERS are always
 * enough.
 * Answers what the head of a numbered page says; how many characters were written, all that the
 * words have room for; and how many of them are spaces at the end. A display has to show the
 * characters before these: filling is spaces, and which of them the sender wrote nobody can tell.
 * Refuses 7, 9, 10, 11, the first that applies, and last 1; the memory is then as it was. Here 7 is
 * a set that is neither, a type that is no numeric page's, or a K over 15.
 */
struct mortisevane_page_read mortisevane_numeric_read(uint32_t set, uint32_t kind, uint32_t check,
        const uint32_t *words, size_t words_length, uint8_t *text, size_t text_length);

/*
 * Fragments of a text, as C and Rust link them. Every function takes any input, and its contract is
 * that of the function it calls: `number` is 0, or 01's number of the refusal, and what was lent is
 * then as it was.
 */

/*
 * What is told of a fragment: 01's number; C, 1 where more follows; F, 3 in a first fragment; N; R,
 * M and the signature of a first fragment, 0 of others; the sum modulo 128 of all its characters,
 * fill and signature with them; and how many characters its text has. All are 0 after a refusal.
 */
struct mortisevane_fragment_read {
    uint32_t number;
    uint32_t continued;
    uint32_t fragment_number;
    uint32_t message_number;
    uint32_t retrieval;
    uint32_t mail_drop;
    uint32_t signature;
    uint32_t sum;
    mortisevane_size characters;
};

/*
 * What the first fragment says of its message: N, the message number, 0 to 63; R, whether the pager
 * expects its messages to be numbered; M, whether it is a mail drop.
 */
struct mortisevane_marks {
    uint32_t message_number;
    uint32_t retrieval;
    uint32_t mail_drop;
};

/*
 * A text cut: how many fragments, and how many words they are together. Each but the last has the
 * largest size. Both are 0 after a refusal.
 */
struct mortisevane_text_cut {
    uint32_t number;
    mortisevane_size fragments;
    mortisevane_size words;
};

/*
 * What a fragment says of itself, without its text.
 * Takes the words of the fragment, 2 to 85.
 * Answers what its first word says, its signature, its sum and how many characters its text has.
 * Refuses 9, 10, 11, the first that applies.
 */
struct mortisevane_fragment_read mortisevane_fragment_heading(const uint32_t *words, size_t words_length);

/*
 * A fragment, and its text.
 * Takes the words of the fragment, 2 to 85, and memory for the text, for which
 * MORTISEVANE_FRAGMENT_CHARACTERS are always enough.
 * Answers what mortisevane_fragment_heading answers; the text is written without its fill.
 * Refuses 9, 10, 11, the first that applies, and last 1; the memory is then as it was.
 */
struct mortisevane_fragment_read mortisevane_fragment_read(const uint32_t *words, size_t words_length,
        uint8_t *text, size_t text_length);

/*
 * A text cut into fragments, one after the other.
 * Takes the text, up to 1,008 characters; N, R and M of the message; how many words the largest
 * fragment may have, 2 to 85; and memory for the words, for which MORTISEVANE_CUT_WORDS are always
 * enough.
 * Answers how many fragments there are and how many words they have together. Each but the last has
 * the largest size, so that fragment j begins at word j times it.
 * Refuses 7, 9, 15, 18, the first that applies, and last 1; the memory is then as it was.
 */
struct mortisevane_text_cut mortisevane_text_cut(const uint8_t *text, size_t text_length,
        struct mortisevane_marks marks, size_t largest, uint32_t *words, size_t words_length);

/*
 * Chains of fragments, as C and Rust link them. Every function takes any input, and its contract is
 * that of the function it calls: `number` is 0, or 01's number of the refusal. The records go in
 * and come back by value; the texts lie in the lent buffer of 8,064 bytes, where a text that is
 * handed out is `characters` bytes from `place` on.
 */

/*
 * The record of one slot. Open is any number but 0; a closed slot's record is all zero. An open
 * chain is known by its address number and its message number; it awaits the next F; `sum` is the
 * sum modulo 128 of what came, the signature with it, and `characters` the length of its text so
 * far.
 */
struct mortisevane_chain {
    uint32_t is_open;
    uint32_t address;
    uint32_t message_number;
    uint32_t next_fragment;
    uint32_t sum;
    mortisevane_size characters;
};

/*
 * The records of the eight slots. The text of slot i begins at byte 1,008 times i of the lent
 * buffer.
 */
struct mortisevane_chains {
    struct mortisevane_chain slots[8];
};

/*
 * What is told of a fragment: 01's number; `lost`, 1 where it closed an open chain of its key whose
 * text is not handed out (a first fragment the older one, a later fragment with 14, 15 or 16 its
 * own); `begun`, 1 where it is a first fragment that was taken, with its R and M; `complete`, 1
 * where it hands out a text, with the slot, the place of the text in the lent buffer and its
 * length. What is not told is 0.
 */
struct mortisevane_chain_answer {
    uint32_t number;
    uint32_t lost;
    uint32_t begun;
    uint32_t retrieval;
    uint32_t mail_drop;
    uint32_t complete;
    mortisevane_size slot;
    mortisevane_size place;
    mortisevane_size characters;
};

/* The answer to a fragment, and the records then. */
struct mortisevane_chain_step {
    struct mortisevane_chain_answer answer;
    struct mortisevane_chains chains;
};

/* The answer to a drop, and the records then. */
struct mortisevane_chain_drop {
    uint32_t number;
    struct mortisevane_chains chains;
};

/*
 * The records after a reset: no chain is open. They are all zero.
 * Takes nothing.
 * Answers the records.
 * Refuses nothing.
 */
struct mortisevane_chains mortisevane_chains_fresh(void);

/*
 * A fragment for an address number: it begins a chain, goes on with one, or hands out a text.
 * Takes the records, as they were answered last; the buffer of the texts, MORTISEVANE_CHAIN_BYTES
 * or more, which is kept from fragment to fragment and may hold anything at first; the address
 * number, 0 to 31; and the words of the fragment.
 * Answers what became of it, and the records then. A text that is handed out is `characters` bytes
 * of the buffer from `place` on, to be read before the next fragment.
 * Refuses 1, 2, 8, 9, 10, 11, 13, 14, 15, 16, 12, the first that applies; the buffer is then as it
 * was. After 14, 15 and 16 the key's chain is closed.
 */
struct mortisevane_chain_step mortisevane_chain_step(struct mortisevane_chains chains,
        uint8_t *buffer, size_t buffer_length, uint32_t address,
        const uint32_t *words, size_t words_length);

/*
 * The chain of an address number and a message number, closed at the caller's wish.
 * Takes the records, the address number, 0 to 31, and the message number, 0 to 63.
 * Answers the records then.
 * Refuses 2, 7, 8, 13, the first that applies; the records are then as they were.
 */
struct mortisevane_chain_drop mortisevane_chain_drop(struct mortisevane_chains chains,
        uint32_t address, uint32_t message_number);

/*
 * Calls in a frame, as C and Rust link them. Every function takes any input, and its contract is
 * that of the function it calls: `number` is 0, or 01's number of the refusal. The records go in
 * and come back by value; the words lie in the lent memory of 680 words, where those of a call are
 * `words` of them from its place on. A word that has not come is 200000H there, which is more than
 * the 21 bits of a word. The caller keeps that memory and lends the same each time; it needs no
 * initial value, since a vector that is taken sets each word of its call to 200000H. Calls stay
 * open until mortisevane_call_end, which the caller calls at the end of each frame. The decoder
 * tells that end, by EOF of a status packet, only in all frame mode (S8.8.3), which FAF of the all
 * frame mode packet forces.
 */

/*
 * One call. Its phase and the word number of its vector, which are its key; its address number, and
 * whether that came as a priority address or is a long one. Once its vector has come `has_vector`
 * is not 0, and then: the vector's kind and K, the word number b where the message words begin (a
 * long call's second), how many words there are (0 where the vector brings none), and which area of
 * the lent memory holds them.
 */
struct mortisevane_call {
    uint32_t phase;
    uint32_t vector;
    uint32_t address;
    uint32_t priority;
    uint32_t long_address;
    uint32_t has_vector;
    uint32_t kind;
    uint32_t check;
    uint32_t start;
    uint32_t words;
    uint32_t area;
};

/*
 * The records. The first `size` of them are the open calls, in the order opened; a size of 8 or
 * more says that all are.
 */
struct mortisevane_calls {
    mortisevane_size size;
    struct mortisevane_call calls[8];
};

/*
 * What is told of an address packet: 01's number; `opened`, 1 where it opened a call, with the
 * call's place among the open ones (a tone-only address opens none); and what the packet says. What
 * is not told is 0.
 */
struct mortisevane_call_opened {
    uint32_t number;
    uint32_t opened;
    mortisevane_size call;
    struct mortisevane_address fields;
};

/* The answer to an address packet, and the records then. */
struct mortisevane_call_opening {
    struct mortisevane_call_opened answer;
    struct mortisevane_calls calls;
};

/*
 * What is told of a vector or message packet: 01's number; `is_vector`, 1 where it is the vector of
 * a call, with the call's place among the open ones, the vector's kind and its K; and `completed`,
 * the calls that it completed: bit i for the call at place i, so that the lowest bit is the one
 * opened first. What is not told is 0.
 */
struct mortisevane_call_heard {
    uint32_t number;
    uint32_t is_vector;
    mortisevane_size call;
    uint32_t kind;
    uint32_t check;
    uint32_t completed;
};

/* The answer to a vector or message packet, and the records then. */
struct mortisevane_call_hearing {
    struct mortisevane_call_heard answer;
    struct mortisevane_calls calls;
};

/*
 * The answer to an end of frame: 01's number, the calls that were incomplete, in the order opened,
 * and the records then.
 */
struct mortisevane_frame_end {
    uint32_t number;
    struct mortisevane_calls incomplete;
    struct mortisevane_calls calls;
};

/*
 * The records with no call open: after a reset, and after an end of frame. They are all zero.
 * Takes nothing.
 * Answers the records.
 * Refuses nothing.
 */
struct mortisevane_calls mortisevane_calls_fresh(void);

/*
 * An address packet, which opens a call.
 * Takes the records, as they were answered last, and the packet.
 * Answers what the packet says, the place of its call, and the records then. A tone-only address
 * opens none.
 * Refuses 2, 7, 8, 14, 12, the first that applies; the records are then as they were.
 */
struct mortisevane_call_opening mortisevane_call_open(struct mortisevane_calls calls,
        uint32_t bits);

/*
 * A vector or message packet.
 * Takes the records, as they were answered last; the memory of the words, MORTISEVANE_CALL_WORDS or
 * more, as it was left last; and the packet.
 * Answers what became of it, with a bit for each call that is complete by it, and the records then.
 * Refuses 2, 7, 10, then of a vector 14 where its call has one already, whatever its span, and 9
 * where its call is still without one and its span is bad, of a word 14 where every call that holds
 * its place has it, of either 17 where it is no call's, and last 1. The memory is then as it was. A
 * span refused by 9 closes its call.
 */
struct mortisevane_call_hearing mortisevane_call_hear(struct mortisevane_calls calls,
        uint32_t *memory, size_t memory_length, uint32_t bits);

/*
 * The end of a frame, which closes all calls.
 * Takes the records, as they were answered last, and the memory of the words, as it was left last.
 * Answers the records of the calls that were incomplete, in the order opened, and the records then.
 * Refuses 2 and then 1; the records are then as they were.
 */
struct mortisevane_frame_end mortisevane_call_end(struct mortisevane_calls calls,
        const uint32_t *memory, size_t memory_length);

/*
 * Where the words of a call begin in the lent memory.
 * Takes the record of the call.
 * Answers the place of its first word; the `words` of the record are from there on.
 * Refuses nothing.
 */
size_t mortisevane_call_place(struct mortisevane_call call);

/*
 * POCSAG pages, as C and Rust link them. Every function takes any input, and its contract is that
 * of the function it calls. Words come as they were received, 32 bits with the first that was sent
 * the highest. The reader goes in and comes back by value; zeros are a fresh start, and whatever is
 * handed back has a meaning. The message words of a page lie at the start of the lent memory,
 * twenty bits each with the first that was sent the lowest, until the next message word.
 */

/*
 * Where the reading stands. Zeros are a fresh start, and whatever is handed back has a meaning.
 * `left` is how many words of the batch are still to come, 1 to 16; where it is 0, or larger, a
 * sync word must come next. `is_open` is not 0 while a page is open. Then there are: its address
 * and function; how many of its message words have come whole, which stand at the start of the lent
 * memory; how many bits were mended in its words; and its fault: 0 for none, 15 where it became
 * longer than the lent memory, and any other number, which is 25, where a word of it was beyond
 * repair.
 */
struct mortisevane_pocsag_reader {
    uint32_t left;
    uint32_t is_open;
    uint32_t address;
    uint32_t function;
    mortisevane_size words;
    uint32_t mended;
    uint32_t fault;
};

/*
 * A page that has ended, where `is_ended` is 1: its number, address and function, how many of its
 * message words came whole, and how many bits were mended. With the number 0 it is handed out.
 * Otherwise it went wrong at the word after those: 25 where that word was beyond repair, 26 where
 * the sync was lost there, or the words ended, before the end of the page was heard, 15 where there
 * was no room for it.
 */
struct mortisevane_pocsag_page {
    uint32_t is_ended;
    uint32_t number;
    uint32_t address;
    uint32_t function;
    mortisevane_size words;
    uint32_t mended;
};

/*
 * What a row of words did, up to the first that has something to tell: its number, how many words
 * were taken, the page that ended at it, and where the reading stands.
 */
struct mortisevane_pocsag_heard {
    uint32_t number;
    mortisevane_size taken;
    struct mortisevane_pocsag_page page;
    struct mortisevane_pocsag_reader reader;
};

/*
 * A text read: how many characters it has, and how many of them at the end are fill. Both are 0
 * after a refusal.
 */
struct mortisevane_pocsag_text {
    uint32_t number;
    mortisevane_size characters;
    mortisevane_size fill_at_end;
};

/*
 * Mends a row of received words where they stand.
 * Takes the words, and memory for as many numbers.
 * Answers 0; each word is then the one that was sent, if no more than two of its 31 code bits were
 * wrong, and beside it stands how many were, 0 to 2, or 25 where the word is beyond repair. Such a
 * word stays as it came.
 * Refuses 1 where the memory is shorter than the row; the words and the memory are then as they
 * were.
 */
uint32_t mortisevane_pocsag_mend(uint32_t *words, size_t words_length,
        uint32_t *bits, size_t bits_length);

/*
 * Received words, one after the other, up to and with the first that has something to tell.
 * Takes the reader, as it was answered last; the words; and the memory for the message words of a
 * page, of any length, as it was left last.
 * Answers how many words were taken, the number of the last of them, the page that ended at it, and
 * the reader. Where no word has anything to tell all are taken; otherwise the rest is to be given
 * again. A page whose number is 0 is handed out, and its message words are the first of the memory.
 * With another number it was not received as a whole: 25 where a word of it was beyond repair, 26
 * where its end was not heard, 15 where the memory was too short; its first words came whole.
 * Refuses 25 for a word beyond repair, 26 for a word that does not follow a sync word, 17 for a
 * message word of no page, the first that applies; such a word was taken, and a word beyond repair
 * takes its place in the batch.
 */
struct mortisevane_pocsag_heard mortisevane_pocsag_hear(struct mortisevane_pocsag_reader reader,
        const uint32_t *words, size_t words_length, uint32_t *lent, size_t lent_length);

/*
 * The close: no more words come.
 * Takes the reader, as it was answered last. To go on after it, begin with zeros.
 * Answers the page that was still open, whose end was not heard, or that there was none.
 * Refuses a page by 25 where a word of it was beyond repair, else by 26; no page is handed out
 * here.
 */
struct mortisevane_pocsag_page mortisevane_pocsag_close(struct mortisevane_pocsag_reader reader);

/*
 * The message words of a page as text, its zeros with it.
 * Takes the kind of text, MORTISEVANE_POCSAG_TEXT_NUMERIC, _NUMERIC_CHINESE or _SEVEN_BIT, which
 * nothing in a page tells; the words, as the lent memory has them; and memory for the text, five
 * bytes a word for a numeric page and three for another.
 * Answers how many characters were written, all that the words hold, and how many of them at the
 * end are fill: spaces in a numeric page, the characters 00H, 03H and 04H in a text. A display has
 * to show the characters before these.
 * Refuses 7 for a kind that there is not, 10 for a word of more than twenty bits, the first that
 * applies, and last 1; the memory is then as it was.
 */
struct mortisevane_pocsag_text mortisevane_pocsag_read(uint32_t kind,
        const uint32_t *words, size_t words_length, uint8_t *text, size_t text_length);

/*
 * The layout of every struct, in bytes: how large it is, and where each of its fields stands. The library was compiled
 * for this one. A compiler that lays a struct out otherwise stops here.
 */
#ifdef __cplusplus
#define MORTISEVANE_HOLDS(truth, otherwise) static_assert(truth, otherwise)
#else
#define MORTISEVANE_HOLDS(truth, otherwise) _Static_assert(truth, otherwise)
#endif
#define MORTISEVANE_LARGE(name, bytes) \
    MORTISEVANE_HOLDS(sizeof(struct mortisevane_##name) == bytes, \
            "struct mortisevane_" #name " is not as large as in the library")
#define MORTISEVANE_PLACED(name, field, place) \
    MORTISEVANE_HOLDS(offsetof(struct mortisevane_##name, field) == place, \
            #field " of struct mortisevane_" #name " is not where the library has it")

MORTISEVANE_LARGE(class, 8);
MORTISEVANE_PLACED(class, number, 0);
MORTISEVANE_PLACED(class, address_class, 4);

MORTISEVANE_LARGE(words, 16);
MORTISEVANE_PLACED(words, number, 0);
MORTISEVANE_PLACED(words, count, 4);
MORTISEVANE_PLACED(words, first, 8);
MORTISEVANE_PLACED(words, second, 12);

MORTISEVANE_LARGE(found, 16);
MORTISEVANE_PLACED(found, number, 0);
MORTISEVANE_PLACED(found, address, 8);

MORTISEVANE_LARGE(capcode, 32);
MORTISEVANE_PLACED(capcode, number, 0);
MORTISEVANE_PLACED(capcode, letter, 4);
MORTISEVANE_PLACED(capcode, frame, 8);
MORTISEVANE_PLACED(capcode, collapse, 12);
MORTISEVANE_PLACED(capcode, phase, 16);
MORTISEVANE_PLACED(capcode, base, 17);
MORTISEVANE_PLACED(capcode, place, 18);
MORTISEVANE_PLACED(capcode, address, 24);

MORTISEVANE_LARGE(assignment, 8);
MORTISEVANE_PLACED(assignment, number, 0);
MORTISEVANE_PLACED(assignment, phase, 4);
MORTISEVANE_PLACED(assignment, base, 5);

MORTISEVANE_LARGE(length, 16);
MORTISEVANE_PLACED(length, number, 0);
MORTISEVANE_PLACED(length, length, 8);

MORTISEVANE_LARGE(wait, 8);
MORTISEVANE_PLACED(wait, number, 0);
MORTISEVANE_PLACED(wait, frames, 4);

MORTISEVANE_LARGE(listener, 8);
MORTISEVANE_PLACED(listener, frame, 0);
MORTISEVANE_PLACED(listener, collapse, 4);

MORTISEVANE_LARGE(listeners, 132);
MORTISEVANE_PLACED(listeners, listeners, 0);
MORTISEVANE_PLACED(listeners, count, 128);

MORTISEVANE_LARGE(frames, 24);
MORTISEVANE_PLACED(frames, number, 0);
MORTISEVANE_PLACED(frames, count, 4);
MORTISEVANE_PLACED(frames, masks, 8);

MORTISEVANE_LARGE(checksum, 4);
MORTISEVANE_PLACED(checksum, value, 0);

MORTISEVANE_LARGE(packet, 4);
MORTISEVANE_PLACED(packet, bits, 0);

MORTISEVANE_LARGE(built, 8);
MORTISEVANE_PLACED(built, number, 0);
MORTISEVANE_PLACED(built, packet, 4);

MORTISEVANE_LARGE(configuration, 28);
MORTISEVANE_PLACED(configuration, oscillator, 0);
MORTISEVANE_PLACED(configuration, polarity, 4);
MORTISEVANE_PLACED(configuration, synchronous_mode, 8);
MORTISEVANE_PLACED(configuration, maximum_off_time, 12);
MORTISEVANE_PLACED(configuration, clock_output_disable, 16);
MORTISEVANE_PLACED(configuration, minute_timer, 20);
MORTISEVANE_PLACED(configuration, low_battery_polarity, 24);

MORTISEVANE_LARGE(control, 24);
MORTISEVANE_PLACED(control, forced_frames, 0);
MORTISEVANE_PLACED(control, single_phase, 4);
MORTISEVANE_PLACED(control, phase, 8);
MORTISEVANE_PLACED(control, block_information, 12);
MORTISEVANE_PLACED(control, minute_timer_clear, 16);
MORTISEVANE_PLACED(control, on, 20);

MORTISEVANE_LARGE(all_frame_mode, 12);
MORTISEVANE_PLACED(all_frame_mode, decrement, 0);
MORTISEVANE_PLACED(all_frame_mode, force, 4);
MORTISEVANE_PLACED(all_frame_mode, decrement_temporary, 8);

MORTISEVANE_LARGE(receiver_lines, 8);
MORTISEVANE_PLACED(receiver_lines, forced, 0);
MORTISEVANE_PLACED(receiver_lines, settings, 4);

MORTISEVANE_LARGE(shut_down, 20);
MORTISEVANE_PLACED(shut_down, setting, 0);
MORTISEVANE_PLACED(shut_down, enable, 4);
MORTISEVANE_PLACED(shut_down, low_battery_check, 8);
MORTISEVANE_PLACED(shut_down, lines, 12);
MORTISEVANE_PLACED(shut_down, time, 16);

MORTISEVANE_LARGE(frame_assignment, 8);
MORTISEVANE_PLACED(frame_assignment, range, 0);
MORTISEVANE_PLACED(frame_assignment, frames, 4);

MORTISEVANE_LARGE(user_address, 16);
MORTISEVANE_PLACED(user_address, location, 0);
MORTISEVANE_PLACED(user_address, long_address, 4);
MORTISEVANE_PLACED(user_address, tone_only, 8);
MORTISEVANE_PLACED(user_address, word, 12);

MORTISEVANE_LARGE(address_enable, 4);
MORTISEVANE_PLACED(address_enable, enabled, 0);

MORTISEVANE_LARGE(part_id, 12);
MORTISEVANE_PLACED(part_id, model, 0);
MORTISEVANE_PLACED(part_id, compatibility, 4);
MORTISEVANE_PLACED(part_id, revision, 8);

MORTISEVANE_LARGE(checksum_read, 8);
MORTISEVANE_PLACED(checksum_read, number, 0);
MORTISEVANE_PLACED(checksum_read, fields, 4);

MORTISEVANE_LARGE(configuration_read, 32);
MORTISEVANE_PLACED(configuration_read, number, 0);
MORTISEVANE_PLACED(configuration_read, fields, 4);

MORTISEVANE_LARGE(control_read, 28);
MORTISEVANE_PLACED(control_read, number, 0);
MORTISEVANE_PLACED(control_read, fields, 4);

MORTISEVANE_LARGE(all_frame_mode_read, 16);
MORTISEVANE_PLACED(all_frame_mode_read, number, 0);
MORTISEVANE_PLACED(all_frame_mode_read, fields, 4);

MORTISEVANE_LARGE(receiver_lines_read, 12);
MORTISEVANE_PLACED(receiver_lines_read, number, 0);
MORTISEVANE_PLACED(receiver_lines_read, fields, 4);

MORTISEVANE_LARGE(shut_down_read, 24);
MORTISEVANE_PLACED(shut_down_read, number, 0);
MORTISEVANE_PLACED(shut_down_read, fields, 4);

MORTISEVANE_LARGE(frame_assignment_read, 12);
MORTISEVANE_PLACED(frame_assignment_read, number, 0);
MORTISEVANE_PLACED(frame_assignment_read, fields, 4);

MORTISEVANE_LARGE(user_address_read, 20);
MORTISEVANE_PLACED(user_address_read, number, 0);
MORTISEVANE_PLACED(user_address_read, fields, 4);

MORTISEVANE_LARGE(address_enable_read, 8);
MORTISEVANE_PLACED(address_enable_read, number, 0);
MORTISEVANE_PLACED(address_enable_read, fields, 4);

MORTISEVANE_LARGE(part_id_read, 16);
MORTISEVANE_PLACED(part_id_read, number, 0);
MORTISEVANE_PLACED(part_id_read, fields, 4);

MORTISEVANE_LARGE(status, 40);
MORTISEVANE_PLACED(status, frame_valid, 0);
MORTISEVANE_PLACED(status, frame, 4);
MORTISEVANE_PLACED(status, synchronous, 8);
MORTISEVANE_PLACED(status, low_battery, 12);
MORTISEVANE_PLACED(status, cycle, 16);
MORTISEVANE_PLACED(status, synchronous_update, 20);
MORTISEVANE_PLACED(status, low_battery_update, 24);
MORTISEVANE_PLACED(status, minute, 28);
MORTISEVANE_PLACED(status, end_of_frame, 32);
MORTISEVANE_PLACED(status, overflow, 36);

MORTISEVANE_LARGE(status_read, 44);
MORTISEVANE_PLACED(status_read, number, 0);
MORTISEVANE_PLACED(status_read, fields, 4);

MORTISEVANE_LARGE(address, 24);
MORTISEVANE_PLACED(address, priority, 0);
MORTISEVANE_PLACED(address, phase, 4);
MORTISEVANE_PLACED(address, long_address, 8);
MORTISEVANE_PLACED(address, address, 12);
MORTISEVANE_PLACED(address, tone_only, 16);
MORTISEVANE_PLACED(address, vector, 20);

MORTISEVANE_LARGE(address_read, 28);
MORTISEVANE_PLACED(address_read, number, 0);
MORTISEVANE_PLACED(address_read, fields, 4);

MORTISEVANE_LARGE(span, 12);
MORTISEVANE_PLACED(span, check, 0);
MORTISEVANE_PLACED(span, words, 4);
MORTISEVANE_PLACED(span, start, 8);

MORTISEVANE_LARGE(short_message, 32);
MORTISEVANE_PLACED(short_message, kind, 0);
MORTISEVANE_PLACED(short_message, first, 4);
MORTISEVANE_PLACED(short_message, second, 8);
MORTISEVANE_PLACED(short_message, third, 12);
MORTISEVANE_PLACED(short_message, source, 16);
MORTISEVANE_PLACED(short_message, retrieval, 20);
MORTISEVANE_PLACED(short_message, message, 24);
MORTISEVANE_PLACED(short_message, unread, 28);

MORTISEVANE_LARGE(instruction, 16);
MORTISEVANE_PLACED(instruction, kind, 0);
MORTISEVANE_PLACED(instruction, address, 4);
MORTISEVANE_PLACED(instruction, frame, 8);
MORTISEVANE_PLACED(instruction, unread, 12);

MORTISEVANE_LARGE(vector, 76);
MORTISEVANE_PLACED(vector, word, 0);
MORTISEVANE_PLACED(vector, damaged, 4);
MORTISEVANE_PLACED(vector, phase, 8);
MORTISEVANE_PLACED(vector, kind, 12);
MORTISEVANE_PLACED(vector, span, 16);
MORTISEVANE_PLACED(vector, short_message, 28);
MORTISEVANE_PLACED(vector, instruction, 60);

MORTISEVANE_LARGE(vector_read, 80);
MORTISEVANE_PLACED(vector_read, number, 0);
MORTISEVANE_PLACED(vector_read, fields, 4);

MORTISEVANE_LARGE(message, 16);
MORTISEVANE_PLACED(message, word, 0);
MORTISEVANE_PLACED(message, damaged, 4);
MORTISEVANE_PLACED(message, phase, 8);
MORTISEVANE_PLACED(message, bits, 12);

MORTISEVANE_LARGE(message_read, 20);
MORTISEVANE_PLACED(message_read, number, 0);
MORTISEVANE_PLACED(message_read, fields, 4);

MORTISEVANE_LARGE(mirror, 8);
MORTISEVANE_PLACED(mirror, sum_register, 0);
MORTISEVANE_PLACED(mirror, talking, 4);

MORTISEVANE_LARGE(mirrored, 12);
MORTISEVANE_PLACED(mirrored, number, 0);
MORTISEVANE_PLACED(mirrored, mirror, 4);

MORTISEVANE_LARGE(numbering, 12);
MORTISEVANE_PLACED(numbering, message_number, 0);
MORTISEVANE_PLACED(numbering, retrieval, 4);
MORTISEVANE_PLACED(numbering, special_format, 8);

MORTISEVANE_LARGE(written, 16);
MORTISEVANE_PLACED(written, number, 0);
MORTISEVANE_PLACED(written, check, 4);
MORTISEVANE_PLACED(written, words, 8);

MORTISEVANE_LARGE(page_read, 32);
MORTISEVANE_PLACED(page_read, number, 0);
MORTISEVANE_PLACED(page_read, numbering, 4);
MORTISEVANE_PLACED(page_read, characters, 16);
MORTISEVANE_PLACED(page_read, spaces_at_end, 24);

MORTISEVANE_LARGE(fragment_read, 40);
MORTISEVANE_PLACED(fragment_read, number, 0);
MORTISEVANE_PLACED(fragment_read, continued, 4);
MORTISEVANE_PLACED(fragment_read, fragment_number, 8);
MORTISEVANE_PLACED(fragment_read, message_number, 12);
MORTISEVANE_PLACED(fragment_read, retrieval, 16);
MORTISEVANE_PLACED(fragment_read, mail_drop, 20);
MORTISEVANE_PLACED(fragment_read, signature, 24);
MORTISEVANE_PLACED(fragment_read, sum, 28);
MORTISEVANE_PLACED(fragment_read, characters, 32);

MORTISEVANE_LARGE(marks, 12);
MORTISEVANE_PLACED(marks, message_number, 0);
MORTISEVANE_PLACED(marks, retrieval, 4);
MORTISEVANE_PLACED(marks, mail_drop, 8);

MORTISEVANE_LARGE(text_cut, 24);
MORTISEVANE_PLACED(text_cut, number, 0);
MORTISEVANE_PLACED(text_cut, fragments, 8);
MORTISEVANE_PLACED(text_cut, words, 16);

MORTISEVANE_LARGE(chain, 32);
MORTISEVANE_PLACED(chain, is_open, 0);
MORTISEVANE_PLACED(chain, address, 4);
MORTISEVANE_PLACED(chain, message_number, 8);
MORTISEVANE_PLACED(chain, next_fragment, 12);
MORTISEVANE_PLACED(chain, sum, 16);
MORTISEVANE_PLACED(chain, characters, 24);

MORTISEVANE_LARGE(chains, 256);
MORTISEVANE_PLACED(chains, slots, 0);

MORTISEVANE_LARGE(chain_answer, 48);
MORTISEVANE_PLACED(chain_answer, number, 0);
MORTISEVANE_PLACED(chain_answer, lost, 4);
MORTISEVANE_PLACED(chain_answer, begun, 8);
MORTISEVANE_PLACED(chain_answer, retrieval, 12);
MORTISEVANE_PLACED(chain_answer, mail_drop, 16);
MORTISEVANE_PLACED(chain_answer, complete, 20);
MORTISEVANE_PLACED(chain_answer, slot, 24);
MORTISEVANE_PLACED(chain_answer, place, 32);
MORTISEVANE_PLACED(chain_answer, characters, 40);

MORTISEVANE_LARGE(chain_step, 304);
MORTISEVANE_PLACED(chain_step, answer, 0);
MORTISEVANE_PLACED(chain_step, chains, 48);

MORTISEVANE_LARGE(chain_drop, 264);
MORTISEVANE_PLACED(chain_drop, number, 0);
MORTISEVANE_PLACED(chain_drop, chains, 8);

MORTISEVANE_LARGE(call, 44);
MORTISEVANE_PLACED(call, phase, 0);
MORTISEVANE_PLACED(call, vector, 4);
MORTISEVANE_PLACED(call, address, 8);
MORTISEVANE_PLACED(call, priority, 12);
MORTISEVANE_PLACED(call, long_address, 16);
MORTISEVANE_PLACED(call, has_vector, 20);
MORTISEVANE_PLACED(call, kind, 24);
MORTISEVANE_PLACED(call, check, 28);
MORTISEVANE_PLACED(call, start, 32);
MORTISEVANE_PLACED(call, words, 36);
MORTISEVANE_PLACED(call, area, 40);

MORTISEVANE_LARGE(calls, 360);
MORTISEVANE_PLACED(calls, size, 0);
MORTISEVANE_PLACED(calls, calls, 8);

MORTISEVANE_LARGE(call_opened, 40);
MORTISEVANE_PLACED(call_opened, number, 0);
MORTISEVANE_PLACED(call_opened, opened, 4);
MORTISEVANE_PLACED(call_opened, call, 8);
MORTISEVANE_PLACED(call_opened, fields, 16);

MORTISEVANE_LARGE(call_opening, 400);
MORTISEVANE_PLACED(call_opening, answer, 0);
MORTISEVANE_PLACED(call_opening, calls, 40);

MORTISEVANE_LARGE(call_heard, 32);
MORTISEVANE_PLACED(call_heard, number, 0);
MORTISEVANE_PLACED(call_heard, is_vector, 4);
MORTISEVANE_PLACED(call_heard, call, 8);
MORTISEVANE_PLACED(call_heard, kind, 16);
MORTISEVANE_PLACED(call_heard, check, 20);
MORTISEVANE_PLACED(call_heard, completed, 24);

MORTISEVANE_LARGE(call_hearing, 392);
MORTISEVANE_PLACED(call_hearing, answer, 0);
MORTISEVANE_PLACED(call_hearing, calls, 32);

MORTISEVANE_LARGE(frame_end, 728);
MORTISEVANE_PLACED(frame_end, number, 0);
MORTISEVANE_PLACED(frame_end, incomplete, 8);
MORTISEVANE_PLACED(frame_end, calls, 368);

MORTISEVANE_LARGE(pocsag_reader, 32);
MORTISEVANE_PLACED(pocsag_reader, left, 0);
MORTISEVANE_PLACED(pocsag_reader, is_open, 4);
MORTISEVANE_PLACED(pocsag_reader, address, 8);
MORTISEVANE_PLACED(pocsag_reader, function, 12);
MORTISEVANE_PLACED(pocsag_reader, words, 16);
MORTISEVANE_PLACED(pocsag_reader, mended, 24);
MORTISEVANE_PLACED(pocsag_reader, fault, 28);

MORTISEVANE_LARGE(pocsag_page, 32);
MORTISEVANE_PLACED(pocsag_page, is_ended, 0);
MORTISEVANE_PLACED(pocsag_page, number, 4);
MORTISEVANE_PLACED(pocsag_page, address, 8);
MORTISEVANE_PLACED(pocsag_page, function, 12);
MORTISEVANE_PLACED(pocsag_page, words, 16);
MORTISEVANE_PLACED(pocsag_page, mended, 24);

MORTISEVANE_LARGE(pocsag_heard, 80);
MORTISEVANE_PLACED(pocsag_heard, number, 0);
MORTISEVANE_PLACED(pocsag_heard, taken, 8);
MORTISEVANE_PLACED(pocsag_heard, page, 16);
MORTISEVANE_PLACED(pocsag_heard, reader, 48);

MORTISEVANE_LARGE(pocsag_text, 24);
MORTISEVANE_PLACED(pocsag_text, number, 0);
MORTISEVANE_PLACED(pocsag_text, characters, 8);
MORTISEVANE_PLACED(pocsag_text, fill_at_end, 16);

#undef MORTISEVANE_PLACED
#undef MORTISEVANE_LARGE
#undef MORTISEVANE_HOLDS

#ifdef __cplusplus
}
#endif

#endif
