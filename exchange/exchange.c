/*
 * The exchange: serves the exports of libmortisevane.a over standard
 * input and output, so that a program of any machine can ask the proved library
 * for its answers. The library is built for x86-64 Linux alone; this program is
 * linked with it, needs nothing else, and runs under an emulator where the
 * machine is another.
 *
 * A request is one byte, which names the export, and the arguments in their
 * order. The answer is the fields of the result in their order; the header
 * gives their meaning, and `number` is 0 or the number of the refusal. Every
 * number is little-endian in as many bytes as its type has, without padding.
 *
 *   1  address_class     u64 address
 *   2  address_words     u64 address
 *   3  word_address      u32 word
 *   4  pair_address      u32 first, u32 second
 *   5  capcode_read      u16 length, and that many bytes of text
 *   6  capcode_assign    u8 letter, u32 frame, u32 collapse, u64 address
 *   7  capcode_print     as capcode_assign, then u8 length and that many bytes,
 *                        which stand in the lent buffer before; the answer
 *                        ends with the whole buffer as it stands after
 *   8  frames_wait       u32 from, u32 to
 *   9  frames_listened   16 times u32 frame, u32 collapse; then u32 count
 *
 * From here on every number is a u32. A builder takes the fields of its packet
 * in the order of its struct in the header; a reader takes a packet and answers the
 * number and those fields, the fields of a struct within a struct in its place.
 *
 *  10  build_checksum            20  read_checksum
 *  11  build_configuration       21  read_configuration
 *  12  build_control             22  read_control
 *  13  build_all_frame_mode      23  read_all_frame_mode
 *  14  build_receiver_lines      24  read_receiver_lines
 *  15  build_shut_down           25  read_shut_down
 *  16  build_frame_assignment    26  read_frame_assignment
 *  17  build_user_address        27  read_user_address
 *  18  build_address_enable      28  read_address_enable
 *  19  build_part_id             29  read_part_id
 *
 *  30  read_status       31  read_address
 *  32  read_vector       33  read_message
 *
 *  34  may_send          packet; the answer is the number alone
 *  35  mirror_reset      packet
 *  36  mirror_step       register, talking; packet
 *  37  mirror_run        register, talking; count, at most 4096, and that many
 *                        packets
 *  38  mirror_closing    register, talking
 *
 * A row is its count, at most 4096, and that many words (u32) or bytes (u8). A
 * row that is lent for writing holds what stands in it before; the answer ends
 * with the whole row as it stands after, without its count. Any other count in an
 * answer is a u64.
 *
 *  39  sum_six_bit       a row of words; the answer is the sum alone
 *  40  sum_ten_bit       as sum_six_bit
 *  41  sum_signature     a row of bytes; the answer is the sum alone
 *  42  numeric_write     set, kind; message number, retrieval, special format; the
 *                        text, a row of bytes; the lent row of words. The answer:
 *                        number, check, count of words, the lent row
 *  43  numeric_read      set, kind, check; a row of words; the lent row of bytes.
 *                        The answer: number, message number, retrieval, special
 *                        format, count of characters, count of spaces at the end,
 *                        the lent row
 *
 *  44  fragment_heading  a row of words. The answer: number, continued, fragment
 *                        number, message number, retrieval, mail drop, signature,
 *                        sum, count of characters
 *  45  fragment_read     a row of words; the lent row of bytes. The answer: that
 *                        of fragment_heading, the lent row
 *  46  text_cut          message number, retrieval, mail drop; u64 largest; the
 *                        text, a row of bytes; the lent row of words. The answer:
 *                        number, count of fragments, count of words, the lent row
 *
 * Chains are their eight records; a record is whether it is open, address, message
 * number, next fragment, sum, and a u64, the count of characters. Their lent buffer
 * is kept from one request to the next, so that it need not come with each. A part
 * is the place of its first byte in that buffer and its length; the answer ends with
 * the part as it stands after. No other request of chains comes before the first 47.
 *
 *  47  chains_fresh      the buffer that is lent from now on: its length, at most
 *                        16384, and what stands in it before. The answer: the
 *                        chains
 *  48  chain_step        the chains; how many of the buffer's bytes are lent; address;
 *                        a row of words; a part. The answer: number, lost, begun,
 *                        retrieval, mail drop, complete, u64 slot, u64 place, count
 *                        of characters, the chains, the part
 *  49  chain_drop        the chains; address, message number; a part. The answer:
 *                        number, the chains, the part
 *
 * Calls are a u64, how many are open, and their eight records, each of the numbers of
 * its struct in the header in their order. Their lent memory is kept as the chains' buffer is,
 * and a part of it is told in the same way, in bytes. No request of calls but 50 and 54
 * comes before the first 50.
 *
 *  50  calls_fresh       the memory that is lent from now on, a row of words. The
 *                        answer: the calls
 *  51  call_open         the calls; packet. The answer: number, opened, u64 call, the
 *                        fields of read_address, the calls
 *  52  call_hear         the calls; how many of the memory's words are lent; packet; a
 *                        part. The answer: number, whether it is a vector, u64 call,
 *                        kind, check, completed, the calls, the part
 *  53  call_end          the calls; how many of the memory's words are lent; a part. The
 *                        answer: number, the calls that are incomplete, the calls, the
 *                        part
 *  54  call_place        a record. The answer: u64 place
 *
 * A reader of POCSAG words is left, whether a page is open, address, function, a u64, the
 * count of words, mended and fault. A page is whether it ended, number, address, function, a
 * u64, the count of words, and mended.
 *
 *  55  pocsag_mend       the lent row of words; the lent row of bits, words too. The
 *                        answer: number, both lent rows
 *  56  pocsag_hear       a reader; a row of words; the lent row of words. The answer:
 *                        number, count of words taken, a page, a reader, the lent row
 *  57  pocsag_close      a reader. The answer: a page
 *  58  pocsag_read       kind; a row of words; the lent row of bytes. The answer: number,
 *                        count of characters, count of fill at the end, the lent row
 *
 * Requests may be sent without waiting for answers. All answers so far are
 * written out before the program waits for more requests. The end of input
 * between two requests ends the program with status 0; a request that is cut,
 * unknown or too long ends it with status 1 and a line on standard error.
 */

#include "mortisevane.h"

enum { FRAME_PACKETS = 8 };

/* ---- What a compiler may call by itself, and no C library is here to give ---- */

void *memcpy(void *restrict to, const void *restrict from, size_t length)
{
    uint8_t *written = to;
    const uint8_t *read = from;
    for (size_t place = 0; place < length; place++)
        written[place] = read[place];
    return to;
}

void *memmove(void *to, const void *from, size_t length)
{
    uint8_t *written = to;
    const uint8_t *read = from;
    if (written <= read)
        return memcpy(to, from, length);
    for (size_t place = length; place > 0; place--)
        written[place - 1] = read[place - 1];
    return to;
}

void *memset(void *to, int byte, size_t length)
{
    uint8_t *written = to;
    for (size_t place = 0; place < length; place++)
        written[place] = (uint8_t)byte;
    return to;
}

/* ---- The system ---- */

enum { SYSTEM_READ = 0, SYSTEM_WRITE = 1, SYSTEM_EXIT = 60 };
enum { STANDARD_INPUT = 0, STANDARD_OUTPUT = 1, STANDARD_ERROR = 2 };
enum { STATUS_DONE = 0, STATUS_FAILED = 1 };

static long system_call(long call, long first, long second, long third)
{
    long result;
    __asm__ volatile("syscall"
                     : "=a"(result)
                     : "a"(call), "D"(first), "S"(second), "d"(third)
                     : "rcx", "r11", "memory");
    return result;
}

static _Noreturn void leave(int status)
{
    for (;;)
        system_call(SYSTEM_EXIT, status, 0, 0);
}

/* Whether all of it was written; the system may take less than it is handed. */
static int write_all(int file, const void *from, size_t length)
{
    const uint8_t *rest = from;
    while (length > 0) {
        long written = system_call(SYSTEM_WRITE, file, (long)rest, (long)length);
        if (written <= 0)
            return 0;
        rest += written;
        length -= (size_t)written;
    }
    return 1;
}

static void complain(const char *line)
{
    size_t length = 0;
    while (line[length] != 0)
        length++;
    write_all(STANDARD_ERROR, line, length);
}

/* ---- Requests in, answers out, both by large pieces ---- */

enum { PIECE = 65536 };

static uint8_t input[PIECE];
static size_t input_length;
static size_t input_taken;

static uint8_t output[PIECE];
static size_t output_length;

static void send_answers(void)
{
    if (!write_all(STANDARD_OUTPUT, output, output_length)) {
        complain("exchange: the answers cannot be written\n");
        leave(STATUS_FAILED);
    }
    output_length = 0;
}

/* What was asked before the fault is still answered. */
static _Noreturn void fail(const char *line)
{
    send_answers();
    complain(line);
    leave(STATUS_FAILED);
}

/*
 * Whether there is another byte of input. The answers go out before the wait:
 * who asks may wait for them and send nothing more until then.
 */
static int input_goes_on(void)
{
    if (input_taken < input_length)
        return 1;
    send_answers();
    long length = system_call(SYSTEM_READ, STANDARD_INPUT, (long)input, PIECE);
    if (length < 0)
        fail("exchange: the requests cannot be read\n");
    input_length = (size_t)length;
    input_taken = 0;
    return length > 0;
}

static void need_input(void)
{
    if (!input_goes_on())
        fail("exchange: a request is cut short\n");
}

static uint8_t take_u8(void)
{
    need_input();
    return input[input_taken++];
}

/*
 * A number that lies in one piece is taken or given at once, since there are many
 * and each step counts where the program is emulated. Its bytes are in the same
 * order in memory.
 */
static inline uint64_t take_number(size_t bytes)
{
    uint64_t number = 0;
    if (input_length - input_taken >= bytes) {
        __builtin_memcpy(&number, input + input_taken, bytes);
        input_taken += bytes;
        return number;
    }
    for (size_t place = 0; place < bytes; place++)
        number |= (uint64_t)take_u8() << (8 * place);
    return number;
}

static uint16_t take_u16(void) { return (uint16_t)take_number(2); }
static uint32_t take_u32(void) { return (uint32_t)take_number(4); }
static uint64_t take_u64(void) { return take_number(8); }

static size_t lesser(size_t one, size_t other) { return one < other ? one : other; }

static void take_bytes(uint8_t *to, size_t length)
{
    while (length > 0) {
        need_input();
        size_t taken = lesser(length, input_length - input_taken);
        memcpy(to, input + input_taken, taken);
        input_taken += taken;
        to += taken;
        length -= taken;
    }
}

static void give_u8(uint8_t byte)
{
    if (output_length == PIECE)
        send_answers();
    output[output_length++] = byte;
}

static inline void give_number(uint64_t number, size_t bytes)
{
    if (PIECE - output_length >= bytes) {
        __builtin_memcpy(output + output_length, &number, bytes);
        output_length += bytes;
        return;
    }
    for (size_t place = 0; place < bytes; place++)
        give_u8((uint8_t)(number >> (8 * place)));
}

static void give_u16(uint16_t number) { give_number(number, 2); }
static void give_u32(uint32_t number) { give_number(number, 4); }
static void give_u64(uint64_t number) { give_number(number, 8); }

static void give_bytes(const uint8_t *from, size_t length)
{
    while (length > 0) {
        if (output_length == PIECE)
            send_answers();
        size_t given = lesser(length, PIECE - output_length);
        memcpy(output + output_length, from, given);
        output_length += given;
        from += given;
        length -= given;
    }
}

/*
 * The structs of packets and of the mirror hold numbers of 32 bits and nothing
 * else, so they go through number by number, without naming the fields again.
 */
static void take_numbers(void *to, size_t size)
{
    for (size_t place = 0; place < size; place += sizeof(uint32_t)) {
        uint32_t number = take_u32();
        memcpy((uint8_t *)to + place, &number, sizeof number);
    }
}

static void give_numbers(const void *from, size_t size)
{
    for (size_t place = 0; place < size; place += sizeof(uint32_t)) {
        uint32_t number;
        memcpy(&number, (const uint8_t *)from + place, sizeof number);
        give_u32(number);
    }
}

/* ---- Lent rows ---- */

/*
 * A lent row stands between guards, and the library may touch neither: 01 has
 * each function state all that lent memory holds after it. Of a row that is lent
 * for reading, nothing may be changed either.
 */
enum { LONGEST_ROW = 4096, LONGEST_LENT = LONGEST_ROW * sizeof(uint32_t) };
enum { GUARD_LENGTH = 16, GUARD_BYTE = 0xA5 };

struct lent {
    _Alignas(GUARD_LENGTH) uint8_t memory[GUARD_LENGTH + LONGEST_LENT + GUARD_LENGTH];
    uint8_t before[LONGEST_LENT];
    size_t length;
};

/* No export is lent more than one row for reading or two for writing. */
static struct lent lent_for_reading;
static struct lent lent_for_writing;
static struct lent also_lent_for_writing;

/* Where the row begins. What is in it, the export knows. */
static void *row_of(struct lent *lent) { return lent->memory + GUARD_LENGTH; }

/* Takes what stands in the row before the call. */
static void take_lent(struct lent *lent, size_t length)
{
    uint8_t *row = row_of(lent);
    memset(lent->memory, GUARD_BYTE, GUARD_LENGTH);
    take_bytes(row, length);
    memset(row + length, GUARD_BYTE, GUARD_LENGTH);
    memcpy(lent->before, row, length);
    lent->length = length;
}

/*
 * Takes a row with its count, which is answered. A request's bytes are those of
 * the numbers in memory: both are little-endian.
 */
static size_t take_row(struct lent *lent, size_t size_of_each)
{
    uint32_t count = take_u32();
    if (count > LONGEST_ROW)
        fail("exchange: a request has a longer row than can be lent\n");
    take_lent(lent, count * size_of_each);
    return count;
}

/* The checks come before the answer is given: after a fault there must be none. */
static void check_guards(const struct lent *lent)
{
    const uint8_t *after = lent->memory + GUARD_LENGTH + lent->length;
    for (size_t place = 0; place < GUARD_LENGTH; place++)
        if (lent->memory[place] != GUARD_BYTE || after[place] != GUARD_BYTE)
            fail("exchange: the library wrote outside the row it was lent\n");
}

static void check_read(const struct lent *lent)
{
    const uint8_t *row = lent->memory + GUARD_LENGTH;
    check_guards(lent);
    for (size_t place = 0; place < lent->length; place++)
        if (row[place] != lent->before[place])
            fail("exchange: the library wrote into a row it was lent for reading\n");
}

static void give_lent(struct lent *lent) { give_bytes(row_of(lent), lent->length); }

/* ---- One function for each export ---- */

static void serve_address_class(void)
{
    struct mortisevane_class answer = mortisevane_address_class(take_u64());
    give_u32(answer.number);
    give_u32(answer.address_class);
}

static void serve_address_words(void)
{
    struct mortisevane_words answer = mortisevane_address_words(take_u64());
    give_u32(answer.number);
    give_u32(answer.count);
    give_u32(answer.first);
    give_u32(answer.second);
}

static void give_address(struct mortisevane_found answer)
{
    give_u32(answer.number);
    give_u64(answer.address);
}

static void serve_word_address(void)
{
    give_address(mortisevane_word_address(take_u32()));
}

static void serve_pair_address(void)
{
    /* C does not say which argument is taken first, so each has its own line. */
    uint32_t first = take_u32();
    uint32_t second = take_u32();
    give_address(mortisevane_pair_address(first, second));
}

static void serve_capcode_read(void)
{
    static uint8_t text[65535];
    uint16_t length = take_u16();
    take_bytes(text, length);
    struct mortisevane_capcode answer = mortisevane_capcode_read(text, length);
    give_u32(answer.number);
    give_u8(answer.letter);
    give_u32(answer.frame);
    give_u32(answer.collapse);
    give_u8(answer.phase);
    give_u8(answer.base);
    give_u8(answer.place);
    give_u64(answer.address);
}

static void serve_capcode_assign(void)
{
    uint8_t letter = take_u8();
    uint32_t frame = take_u32();
    uint32_t collapse = take_u32();
    uint64_t address = take_u64();
    struct mortisevane_assignment answer = mortisevane_capcode_assign(letter, frame, collapse, address);
    give_u32(answer.number);
    give_u8(answer.phase);
    give_u8(answer.base);
}

static void serve_capcode_print(void)
{
    uint8_t letter = take_u8();
    uint32_t frame = take_u32();
    uint32_t collapse = take_u32();
    uint64_t address = take_u64();
    uint8_t lent = take_u8();
    take_lent(&lent_for_writing, lent);
    struct mortisevane_length answer = mortisevane_capcode_print(letter, frame, collapse, address,
                                                            row_of(&lent_for_writing), lent);
    check_guards(&lent_for_writing);
    give_u32(answer.number);
    give_u64(answer.length);
    give_lent(&lent_for_writing);
}

static void serve_frames_wait(void)
{
    uint32_t from = take_u32();
    uint32_t to = take_u32();
    struct mortisevane_wait answer = mortisevane_frames_wait(from, to);
    give_u32(answer.number);
    give_u32(answer.frames);
}

static void serve_frames_listened(void)
{
    struct mortisevane_listeners listeners;
    for (size_t place = 0; place < sizeof listeners.listeners / sizeof listeners.listeners[0]; place++) {
        listeners.listeners[place].frame = take_u32();
        listeners.listeners[place].collapse = take_u32();
    }
    listeners.count = take_u32();
    struct mortisevane_frames answer = mortisevane_frames_listened(listeners);
    give_u32(answer.number);
    give_u32(answer.count);
    for (size_t packet = 0; packet < FRAME_PACKETS; packet++)
        give_u16(answer.masks[packet]);
}

/* A builder: the fields in, the packet out. */
#define SERVE_BUILD(kind)                                          \
    static void serve_build_##kind(void)                           \
    {                                                              \
        struct mortisevane_##kind fields;                                        \
        take_numbers(&fields, sizeof fields);                      \
        struct mortisevane_built answer = mortisevane_build_##kind(fields);    \
        give_numbers(&answer, sizeof answer);                      \
    }

SERVE_BUILD(checksum)
SERVE_BUILD(configuration)
SERVE_BUILD(control)
SERVE_BUILD(all_frame_mode)
SERVE_BUILD(receiver_lines)
SERVE_BUILD(shut_down)
SERVE_BUILD(frame_assignment)
SERVE_BUILD(user_address)
SERVE_BUILD(address_enable)
SERVE_BUILD(part_id)

/* A reader: the packet in, the number and the fields out. */
#define SERVE_READ(kind)                                                  \
    static void serve_read_##kind(void)                                   \
    {                                                                     \
        struct mortisevane_##kind##_read answer = mortisevane_read_##kind(take_u32());  \
        give_numbers(&answer, sizeof answer);                             \
    }

SERVE_READ(checksum)
SERVE_READ(configuration)
SERVE_READ(control)
SERVE_READ(all_frame_mode)
SERVE_READ(receiver_lines)
SERVE_READ(shut_down)
SERVE_READ(frame_assignment)
SERVE_READ(user_address)
SERVE_READ(address_enable)
SERVE_READ(part_id)
SERVE_READ(status)
SERVE_READ(address)
SERVE_READ(vector)
SERVE_READ(message)

static void serve_may_send(void) { give_u32(mortisevane_may_send(take_u32())); }

static void give_mirrored(struct mortisevane_mirrored answer) { give_numbers(&answer, sizeof answer); }

static struct mortisevane_mirror take_mirror(void)
{
    struct mortisevane_mirror mirror;
    take_numbers(&mirror, sizeof mirror);
    return mirror;
}

static void serve_mirror_reset(void) { give_mirrored(mortisevane_mirror_reset(take_u32())); }

static void serve_mirror_step(void)
{
    struct mortisevane_mirror mirror = take_mirror();
    uint32_t packet = take_u32();
    give_mirrored(mortisevane_mirror_step(mirror, packet));
}

static void serve_mirror_run(void)
{
    struct mortisevane_mirror mirror = take_mirror();
    size_t count = take_row(&lent_for_reading, sizeof(uint32_t));
    struct mortisevane_mirrored answer = mortisevane_mirror_run(mirror, row_of(&lent_for_reading), count);
    check_read(&lent_for_reading);
    give_mirrored(answer);
}

static void serve_mirror_closing(void)
{
    struct mortisevane_built answer = mortisevane_mirror_closing(take_mirror());
    give_numbers(&answer, sizeof answer);
}

static void serve_sum_six_bit(void)
{
    size_t count = take_row(&lent_for_reading, sizeof(uint32_t));
    uint32_t sum = mortisevane_sum_six_bit(row_of(&lent_for_reading), count);
    check_read(&lent_for_reading);
    give_u32(sum);
}

static void serve_sum_ten_bit(void)
{
    size_t count = take_row(&lent_for_reading, sizeof(uint32_t));
    uint32_t sum = mortisevane_sum_ten_bit(row_of(&lent_for_reading), count);
    check_read(&lent_for_reading);
    give_u32(sum);
}

static void serve_sum_signature(void)
{
    size_t count = take_row(&lent_for_reading, sizeof(uint8_t));
    uint32_t sum = mortisevane_sum_signature(row_of(&lent_for_reading), count);
    check_read(&lent_for_reading);
    give_u32(sum);
}

static void serve_numeric_write(void)
{
    uint32_t set = take_u32();
    uint32_t kind = take_u32();
    struct mortisevane_numbering numbering;
    take_numbers(&numbering, sizeof numbering);
    size_t characters = take_row(&lent_for_reading, sizeof(uint8_t));
    size_t words = take_row(&lent_for_writing, sizeof(uint32_t));
    struct mortisevane_written answer =
        mortisevane_numeric_write(set, row_of(&lent_for_reading), characters, kind, numbering,
                                  row_of(&lent_for_writing), words);
    check_read(&lent_for_reading);
    check_guards(&lent_for_writing);
    give_u32(answer.number);
    give_u32(answer.check);
    give_u64(answer.words);
    give_lent(&lent_for_writing);
}

static void serve_numeric_read(void)
{
    uint32_t set = take_u32();
    uint32_t kind = take_u32();
    uint32_t check = take_u32();
    size_t words = take_row(&lent_for_reading, sizeof(uint32_t));
    size_t characters = take_row(&lent_for_writing, sizeof(uint8_t));
    struct mortisevane_page_read answer =
        mortisevane_numeric_read(set, kind, check, row_of(&lent_for_reading), words,
                                 row_of(&lent_for_writing), characters);
    check_read(&lent_for_reading);
    check_guards(&lent_for_writing);
    give_u32(answer.number);
    give_numbers(&answer.numbering, sizeof answer.numbering);
    give_u64(answer.characters);
    give_u64(answer.spaces_at_end);
    give_lent(&lent_for_writing);
}

static void give_fragment(struct mortisevane_fragment_read answer)
{
    give_u32(answer.number);
    give_u32(answer.continued);
    give_u32(answer.fragment_number);
    give_u32(answer.message_number);
    give_u32(answer.retrieval);
    give_u32(answer.mail_drop);
    give_u32(answer.signature);
    give_u32(answer.sum);
    give_u64(answer.characters);
}

static void serve_fragment_heading(void)
{
    size_t words = take_row(&lent_for_reading, sizeof(uint32_t));
    struct mortisevane_fragment_read answer = mortisevane_fragment_heading(row_of(&lent_for_reading), words);
    check_read(&lent_for_reading);
    give_fragment(answer);
}

static void serve_fragment_read(void)
{
    size_t words = take_row(&lent_for_reading, sizeof(uint32_t));
    size_t characters = take_row(&lent_for_writing, sizeof(uint8_t));
    struct mortisevane_fragment_read answer =
        mortisevane_fragment_read(row_of(&lent_for_reading), words, row_of(&lent_for_writing),
                                  characters);
    check_read(&lent_for_reading);
    check_guards(&lent_for_writing);
    give_fragment(answer);
    give_lent(&lent_for_writing);
}

static void serve_text_cut(void)
{
    struct mortisevane_marks marks;
    take_numbers(&marks, sizeof marks);
    size_t largest = take_u64();
    size_t characters = take_row(&lent_for_reading, sizeof(uint8_t));
    size_t words = take_row(&lent_for_writing, sizeof(uint32_t));
    struct mortisevane_text_cut answer =
        mortisevane_text_cut(row_of(&lent_for_reading), characters, marks, largest,
                             row_of(&lent_for_writing), words);
    check_read(&lent_for_reading);
    check_guards(&lent_for_writing);
    give_u32(answer.number);
    give_u64(answer.fragments);
    give_u64(answer.words);
    give_lent(&lent_for_writing);
}

/* ---- Memory that is kept from one request to the next ---- */

/* How much of it is lent, in what it is made of. */
static size_t take_lent_count(const struct lent *kept, size_t size_of_each)
{
    uint32_t count = take_u32();
    if (count > kept->length / size_of_each)
        fail("exchange: a request lends more than is in the buffer\n");
    return count;
}

/* Which bytes of it an answer ends with. */
struct part {
    uint32_t from;
    uint32_t length;
};

static struct part take_part(const struct lent *kept)
{
    struct part part;
    take_numbers(&part, sizeof part);
    if (part.from > kept->length || part.length > kept->length - part.from)
        fail("exchange: a request asks for what is not in the buffer\n");
    return part;
}

static void give_part(struct lent *kept, struct part part)
{
    const uint8_t *buffer = row_of(kept);
    give_bytes(buffer + part.from, part.length);
}

/* ---- Chains, and the buffer that is lent to them ---- */

static struct lent chain_buffer;

static struct mortisevane_chains take_chains(void)
{
    struct mortisevane_chains chains;
    for (size_t slot = 0; slot < MORTISEVANE_SLOTS; slot++) {
        struct mortisevane_chain *chain = &chains.slots[slot];
        chain->is_open = take_u32();
        chain->address = take_u32();
        chain->message_number = take_u32();
        chain->next_fragment = take_u32();
        chain->sum = take_u32();
        chain->characters = take_u64();
    }
    return chains;
}

static void give_chains(const struct mortisevane_chains *chains)
{
    for (size_t slot = 0; slot < MORTISEVANE_SLOTS; slot++) {
        const struct mortisevane_chain *chain = &chains->slots[slot];
        give_u32(chain->is_open);
        give_u32(chain->address);
        give_u32(chain->message_number);
        give_u32(chain->next_fragment);
        give_u32(chain->sum);
        give_u64(chain->characters);
    }
}

static void serve_chains_fresh(void)
{
    uint32_t length = take_u32();
    if (length > LONGEST_LENT)
        fail("exchange: a request has a longer buffer than can be lent\n");
    take_lent(&chain_buffer, length);
    struct mortisevane_chains chains = mortisevane_chains_fresh();
    give_chains(&chains);
}

static void serve_chain_step(void)
{
    struct mortisevane_chains chains = take_chains();
    size_t lent = take_lent_count(&chain_buffer, sizeof(uint8_t));
    uint32_t address = take_u32();
    size_t words = take_row(&lent_for_reading, sizeof(uint32_t));
    struct part part = take_part(&chain_buffer);
    struct mortisevane_chain_step step = mortisevane_chain_step(chains, row_of(&chain_buffer), lent, address,
                                                    row_of(&lent_for_reading), words);
    check_read(&lent_for_reading);
    check_guards(&chain_buffer);
    give_u32(step.answer.number);
    give_u32(step.answer.lost);
    give_u32(step.answer.begun);
    give_u32(step.answer.retrieval);
    give_u32(step.answer.mail_drop);
    give_u32(step.answer.complete);
    give_u64(step.answer.slot);
    give_u64(step.answer.place);
    give_u64(step.answer.characters);
    give_chains(&step.chains);
    give_part(&chain_buffer, part);
}

static void serve_chain_drop(void)
{
    struct mortisevane_chains chains = take_chains();
    uint32_t address = take_u32();
    uint32_t message_number = take_u32();
    struct part part = take_part(&chain_buffer);
    struct mortisevane_chain_drop drop = mortisevane_chain_drop(chains, address, message_number);
    give_u32(drop.number);
    give_chains(&drop.chains);
    give_part(&chain_buffer, part);
}

/* ---- Calls, and the memory that is lent to them ---- */

static struct lent call_memory;

/* Records hold numbers of 32 bits alone, and theirs are the bytes of a request. */
static struct mortisevane_calls take_calls(void)
{
    struct mortisevane_calls calls;
    calls.size = take_u64();
    take_bytes((uint8_t *)calls.calls, sizeof calls.calls);
    return calls;
}

static void give_calls(const struct mortisevane_calls *calls)
{
    give_u64(calls->size);
    give_bytes((const uint8_t *)calls->calls, sizeof calls->calls);
}

static void serve_calls_fresh(void)
{
    take_row(&call_memory, sizeof(uint32_t));
    struct mortisevane_calls calls = mortisevane_calls_fresh();
    give_calls(&calls);
}

static void serve_call_open(void)
{
    struct mortisevane_calls calls = take_calls();
    uint32_t packet = take_u32();
    struct mortisevane_call_opening opening = mortisevane_call_open(calls, packet);
    give_u32(opening.answer.number);
    give_u32(opening.answer.opened);
    give_u64(opening.answer.call);
    give_numbers(&opening.answer.fields, sizeof opening.answer.fields);
    give_calls(&opening.calls);
}

static void serve_call_hear(void)
{
    struct mortisevane_calls calls = take_calls();
    size_t lent = take_lent_count(&call_memory, sizeof(uint32_t));
    uint32_t packet = take_u32();
    struct part part = take_part(&call_memory);
    struct mortisevane_call_hearing hearing =
        mortisevane_call_hear(calls, row_of(&call_memory), lent, packet);
    check_guards(&call_memory);
    give_u32(hearing.answer.number);
    give_u32(hearing.answer.is_vector);
    give_u64(hearing.answer.call);
    give_u32(hearing.answer.kind);
    give_u32(hearing.answer.check);
    give_u32(hearing.answer.completed);
    give_calls(&hearing.calls);
    give_part(&call_memory, part);
}

static void serve_call_end(void)
{
    struct mortisevane_calls calls = take_calls();
    size_t lent = take_lent_count(&call_memory, sizeof(uint32_t));
    struct part part = take_part(&call_memory);
    struct mortisevane_frame_end end = mortisevane_call_end(calls, row_of(&call_memory), lent);
    check_guards(&call_memory);
    give_u32(end.number);
    give_calls(&end.incomplete);
    give_calls(&end.calls);
    give_part(&call_memory, part);
}

static void serve_call_place(void)
{
    struct mortisevane_call call;
    take_numbers(&call, sizeof call);
    give_u64(mortisevane_call_place(call));
}

/* ---- POCSAG pages ---- */

static void serve_pocsag_mend(void)
{
    size_t words = take_row(&lent_for_writing, sizeof(uint32_t));
    size_t bits = take_row(&also_lent_for_writing, sizeof(uint32_t));
    uint32_t number = mortisevane_pocsag_mend(row_of(&lent_for_writing), words, row_of(&also_lent_for_writing), bits);
    check_guards(&lent_for_writing);
    check_guards(&also_lent_for_writing);
    give_u32(number);
    give_lent(&lent_for_writing);
    give_lent(&also_lent_for_writing);
}

static struct mortisevane_pocsag_reader take_pocsag_reader(void)
{
    struct mortisevane_pocsag_reader reader;
    reader.left = take_u32();
    reader.is_open = take_u32();
    reader.address = take_u32();
    reader.function = take_u32();
    reader.words = take_u64();
    reader.mended = take_u32();
    reader.fault = take_u32();
    return reader;
}

static void give_pocsag_reader(const struct mortisevane_pocsag_reader *reader)
{
    give_u32(reader->left);
    give_u32(reader->is_open);
    give_u32(reader->address);
    give_u32(reader->function);
    give_u64(reader->words);
    give_u32(reader->mended);
    give_u32(reader->fault);
}

static void give_pocsag_page(const struct mortisevane_pocsag_page *page)
{
    give_u32(page->is_ended);
    give_u32(page->number);
    give_u32(page->address);
    give_u32(page->function);
    give_u64(page->words);
    give_u32(page->mended);
}

static void serve_pocsag_hear(void)
{
    struct mortisevane_pocsag_reader reader = take_pocsag_reader();
    size_t words = take_row(&lent_for_reading, sizeof(uint32_t));
    size_t lent = take_row(&lent_for_writing, sizeof(uint32_t));
    struct mortisevane_pocsag_heard heard =
        mortisevane_pocsag_hear(reader, row_of(&lent_for_reading), words, row_of(&lent_for_writing), lent);
    check_read(&lent_for_reading);
    check_guards(&lent_for_writing);
    give_u32(heard.number);
    give_u64(heard.taken);
    give_pocsag_page(&heard.page);
    give_pocsag_reader(&heard.reader);
    give_lent(&lent_for_writing);
}

static void serve_pocsag_close(void)
{
    struct mortisevane_pocsag_page page = mortisevane_pocsag_close(take_pocsag_reader());
    give_pocsag_page(&page);
}

static void serve_pocsag_read(void)
{
    uint32_t kind = take_u32();
    size_t words = take_row(&lent_for_reading, sizeof(uint32_t));
    size_t characters = take_row(&lent_for_writing, sizeof(uint8_t));
    struct mortisevane_pocsag_text answer =
        mortisevane_pocsag_read(kind, row_of(&lent_for_reading), words, row_of(&lent_for_writing), characters);
    check_read(&lent_for_reading);
    check_guards(&lent_for_writing);
    give_u32(answer.number);
    give_u64(answer.characters);
    give_u64(answer.fill_at_end);
    give_lent(&lent_for_writing);
}

/* ---- Which byte names which export ---- */

static void (*const exports[])(void) = {
    [1] = serve_address_class,
    [2] = serve_address_words,
    [3] = serve_word_address,
    [4] = serve_pair_address,
    [5] = serve_capcode_read,
    [6] = serve_capcode_assign,
    [7] = serve_capcode_print,
    [8] = serve_frames_wait,
    [9] = serve_frames_listened,
    [10] = serve_build_checksum,
    [11] = serve_build_configuration,
    [12] = serve_build_control,
    [13] = serve_build_all_frame_mode,
    [14] = serve_build_receiver_lines,
    [15] = serve_build_shut_down,
    [16] = serve_build_frame_assignment,
    [17] = serve_build_user_address,
    [18] = serve_build_address_enable,
    [19] = serve_build_part_id,
    [20] = serve_read_checksum,
    [21] = serve_read_configuration,
    [22] = serve_read_control,
    [23] = serve_read_all_frame_mode,
    [24] = serve_read_receiver_lines,
    [25] = serve_read_shut_down,
    [26] = serve_read_frame_assignment,
    [27] = serve_read_user_address,
    [28] = serve_read_address_enable,
    [29] = serve_read_part_id,
    [30] = serve_read_status,
    [31] = serve_read_address,
    [32] = serve_read_vector,
    [33] = serve_read_message,
    [34] = serve_may_send,
    [35] = serve_mirror_reset,
    [36] = serve_mirror_step,
    [37] = serve_mirror_run,
    [38] = serve_mirror_closing,
    [39] = serve_sum_six_bit,
    [40] = serve_sum_ten_bit,
    [41] = serve_sum_signature,
    [42] = serve_numeric_write,
    [43] = serve_numeric_read,
    [44] = serve_fragment_heading,
    [45] = serve_fragment_read,
    [46] = serve_text_cut,
    [47] = serve_chains_fresh,
    [48] = serve_chain_step,
    [49] = serve_chain_drop,
    [50] = serve_calls_fresh,
    [51] = serve_call_open,
    [52] = serve_call_hear,
    [53] = serve_call_end,
    [54] = serve_call_place,
    [55] = serve_pocsag_mend,
    [56] = serve_pocsag_hear,
    [57] = serve_pocsag_close,
    [58] = serve_pocsag_read,
};

static void serve_request(uint8_t export)
{
    if (export >= sizeof exports / sizeof exports[0] || !exports[export])
        fail("exchange: a request names no export\n");
    exports[export]();
}

_Noreturn void serve_requests(void)
{
    while (input_goes_on())
        serve_request(take_u8());
    leave(STATUS_DONE);
}

/*
 * Where the system starts the program. A C function counts on a stack laid out
 * as if it had been called, which the start is not.
 */
__asm__(".globl _start\n"
        "_start:\n"
        "    xorl %ebp, %ebp\n"
        "    andq $-16, %rsp\n"
        "    call serve_requests\n");
