/* Packets: building, reading, what may be sent; the mirror of the decoder. */
#include "fuzz.h"

/* The bits after a packet's ID. */
enum { DATA_BITS = 24 };

/* Fields of these widths; now and then some are too large, or all are any numbers. */
static void fill_fields(uint32_t *fields, const unsigned *widths, size_t count)
{
    bool wild = one_in(4);
    for (size_t place = 0; place < count; place++)
        fields[place] = (uint32_t)random_of_width(wild && one_in(2) ? 32 : widths[place]);
    if (one_in(24))
        random_fill(fields, 4 * count);
}

/* A packet with one of these IDs and any data. */
static uint32_t any_packet(uint32_t first_id, uint32_t last_id)
{
    uint32_t id = (uint32_t)random_between(first_id, last_id) << DATA_BITS;
    return id | (uint32_t)(random_bits() >> 40);
}

/* A packet with one of these IDs: random data, few bits set, or good data with a bit changed or none. */
static uint32_t some_packet(uint32_t first_id, uint32_t last_id, uint32_t good)
{
    uint32_t id = (uint32_t)random_between(first_id, last_id) << DATA_BITS;
    switch (random_below(8)) {
    case 0:
        return (uint32_t)random_bits();
    case 1:
        return id | (uint32_t)(random_bits() >> 40);
    case 2:
        return id | (uint32_t)(random_bits() & random_bits() & random_bits()) >> 8;
    case 3:
        return good ^ 1u << random_below(32);
    default:
        return good;
    }
}

/*
 * Of a packet that is built and read: its builder and its reader, each of which is held to the other. The fields of all
 * packets are numbers of 32 bits, so a struct of them is compared as bytes.
 */
#define BUILT_AND_READ(kind, first_id, last_id, sent, ...) \
    static struct mortisevane_built ask_to_build_##kind(struct mortisevane_##kind fields) \
    { \
        struct mortisevane_built built = CALL(build_##kind, fields); \
        answered(built.number); \
        hold(built.number == 0 || built.packet.bits == 0, "a packet told although refused"); \
        return built; \
    } \
    static struct mortisevane_##kind##_read ask_to_read_##kind(uint32_t bits) \
    { \
        struct mortisevane_##kind##_read read = CALL(read_##kind, bits); \
        answered(read.number); \
        hold(read.number == 0 || all_zero(&read.fields, sizeof read.fields), "fields told although refused"); \
        return read; \
    } \
    static struct mortisevane_##kind some_##kind(void) \
    { \
        static const unsigned widths[] = { __VA_ARGS__ }; \
        struct mortisevane_##kind fields; \
        _Static_assert(sizeof fields == sizeof widths, "a width for each field"); \
        fill_fields((uint32_t *)&fields, widths, sizeof widths / sizeof *widths); \
        return fields; \
    } \
    void fuzz_build_##kind(void) \
    { \
        struct mortisevane_##kind fields = some_##kind(); \
        struct mortisevane_built built = ask_to_build_##kind(fields); \
        if (built.number != 0) \
            return; \
        struct mortisevane_##kind##_read read = ask_to_read_##kind(built.packet.bits); \
        hold(read.number == 0 && memcmp(&read.fields, &fields, sizeof fields) == 0, "built and read are not the same"); \
        hold(ask_to_send(built.packet.bits) == (sent ? 0 : MORTISEVANE_REFUSED_PACKET), "what is built is not sent"); \
    } \
    void fuzz_read_##kind(void) \
    { \
        uint32_t good = ask_to_build_##kind(some_##kind()).packet.bits; \
        uint32_t bits = some_packet(first_id, last_id, good); \
        struct mortisevane_##kind##_read read = ask_to_read_##kind(bits); \
        if (read.number != 0) \
            return; \
        struct mortisevane_built built = ask_to_build_##kind(read.fields); \
        hold(built.number == 0 && built.packet.bits == bits, "read and built are not the same"); \
    }

static uint32_t ask_to_send(uint32_t packet)
{
    uint32_t number = CALL(may_send, packet);
    answered(number);
    return number;
}

BUILT_AND_READ(checksum, MORTISEVANE_PACKET_CHECKSUM, MORTISEVANE_PACKET_CHECKSUM, true, 24)
BUILT_AND_READ(configuration, MORTISEVANE_PACKET_CONFIGURATION, MORTISEVANE_PACKET_CONFIGURATION, true, 2, 2, 1, 1, 1, 1, 1)
BUILT_AND_READ(control, MORTISEVANE_PACKET_CONTROL, MORTISEVANE_PACKET_CONTROL, true, 8, 1, 2, 1, 1, 1)
BUILT_AND_READ(all_frame_mode, MORTISEVANE_PACKET_ALL_FRAME_MODE, MORTISEVANE_PACKET_ALL_FRAME_MODE, true, 1, 1, 16)
BUILT_AND_READ(receiver_lines, MORTISEVANE_PACKET_RECEIVER_LINES, MORTISEVANE_PACKET_RECEIVER_LINES, true, 8, 8)
BUILT_AND_READ(shut_down, MORTISEVANE_PACKET_SHUT_DOWN_1, MORTISEVANE_PACKET_SHUT_DOWN_2, true, 1, 1, 1, 8, 6)
BUILT_AND_READ(frame_assignment, MORTISEVANE_PACKET_FIRST_FRAMES, MORTISEVANE_PACKET_LAST_FRAMES, true, 3, 16)
BUILT_AND_READ(user_address, MORTISEVANE_PACKET_FIRST_USER_ADDRESS, MORTISEVANE_PACKET_LAST_USER_ADDRESS, true, 4, 1, 1, 21)
BUILT_AND_READ(address_enable, MORTISEVANE_PACKET_ADDRESS_ENABLE, MORTISEVANE_PACKET_ADDRESS_ENABLE, true, 16)
BUILT_AND_READ(part_id, MORTISEVANE_PACKET_PART_ID, MORTISEVANE_PACKET_PART_ID, false, 2, 14, 8)

/* Of a packet that is only read: whether every field is within its width. */
static void hold_widths(const uint32_t *fields, const unsigned *widths, size_t count)
{
    for (size_t place = 0; place < count; place++)
        hold(fields[place] >> widths[place] == 0, "a field over its width");
}

#define ONLY_READ(kind, first_id, last_id, ...) \
    void fuzz_read_##kind(void) \
    { \
        static const unsigned widths[] = { __VA_ARGS__ }; \
        uint32_t good = any_packet(first_id, last_id); \
        struct mortisevane_##kind##_read read = CALL(read_##kind, some_packet(first_id, last_id, good)); \
        answered(read.number); \
        _Static_assert(sizeof read.fields == sizeof widths, "a width for each field"); \
        hold(read.number == 0 || all_zero(&read.fields, sizeof read.fields), "fields told although refused"); \
        hold_widths((const uint32_t *)&read.fields, widths, sizeof widths / sizeof *widths); \
    }

ONLY_READ(status, MORTISEVANE_PACKET_STATUS, MORTISEVANE_PACKET_STATUS, 1, 7, 1, 1, 4, 1, 1, 1, 1, 1)
ONLY_READ(address, MORTISEVANE_PACKET_ADDRESS, MORTISEVANE_PACKET_ADDRESS, 1, 2, 1, 5, 1, 7)
/* A vector's word, e, p, V; K, words, b; t, three characters, S, R, N, d; i, address, frame, d. */
ONLY_READ(vector, MORTISEVANE_PACKET_FIRST_VECTOR, MORTISEVANE_PACKET_LAST_WORD, 7, 1, 2, 3, 4, 7, 7, 2, 4, 4, 4, 3, 1, 6, 12,
    3, 5, 7, 11)
ONLY_READ(message, MORTISEVANE_PACKET_FIRST_MESSAGE, MORTISEVANE_PACKET_LAST_WORD, 7, 1, 2, 21)

void fuzz_may_send(void)
{
    uint32_t last_id = MORTISEVANE_PACKET_LAST_USER_ADDRESS;
    uint32_t good = (uint32_t)random_below(last_id) << DATA_BITS;
    good |= (uint32_t)random_of_width(8);
    ask_to_send(some_packet(0, last_id, good));
}

/* ---- The mirror ---- */

/* As the last answer left it: most calls go on from there. */
static struct mortisevane_mirror kept_mirror;

static struct mortisevane_mirror some_mirror(void)
{
    struct mortisevane_mirror mirror = kept_mirror;
    if (one_in(8))
        random_fill(&mirror, sizeof mirror);
    else if (one_in(8))
        random_flip(&mirror, sizeof mirror);
    return mirror;
}

static bool same_mirror(struct mortisevane_mirror left, struct mortisevane_mirror right)
{
    return left.sum_register == right.sum_register && left.talking == right.talking;
}

/* What is held of a mirror that was handed in and one that came back. */
static void hold_mirrored(struct mortisevane_mirror before, struct mortisevane_mirrored then)
{
    answered(then.number);
    hold((then.number == 0) == (before.sum_register >> DATA_BITS == 0), "a register over 24 bits taken, or another refused");
    hold(then.number == 0 || same_mirror(before, then.mirror), "the mirror changed although refused");
    hold(then.number != 0 || then.mirror.sum_register >> DATA_BITS == 0, "a register over 24 bits");
}

static struct mortisevane_mirrored ask_step(struct mortisevane_mirror mirror, uint32_t packet)
{
    struct mortisevane_mirrored then = CALL(mirror_step, mirror, packet);
    hold_mirrored(mirror, then);
    return then;
}

void fuzz_mirror_reset(void)
{
    uint32_t packet = some_packet(MORTISEVANE_PACKET_PART_ID, MORTISEVANE_PACKET_PART_ID, 0xFF000106);
    struct mortisevane_mirrored then = CALL(mirror_reset, packet);
    answered(then.number);
    hold(then.mirror.talking == 0, "talking after a reset");
    hold(then.mirror.sum_register == (then.number == 0 ? packet & 0xFFFFFF : 0), "the register is not the packet's data");
    if (then.number == 0)
        kept_mirror = then.mirror;
}

/* Of any ID, but mostly one that the decoder knows. */
static uint32_t some_sent_packet(void)
{
    return some_packet(MORTISEVANE_PACKET_CHECKSUM, MORTISEVANE_PACKET_LAST_USER_ADDRESS, any_packet(0, 0x27));
}

void fuzz_mirror_step(void)
{
    struct mortisevane_mirror mirror = some_mirror();
    struct mortisevane_mirrored then = ask_step(mirror, some_sent_packet());
    if (then.number == 0)
        kept_mirror = then.mirror;
}

/* A run is the steps of its packets: held of short runs, which are mostly made. */
void fuzz_mirror_run(void)
{
    enum { SHORT_RUN = 8 };
    size_t count = random_length(SHORT_RUN, MEMORY_WORDS);
    struct row packets = lend_row(&read_memory, 4 * count);
    uint32_t *filled = to_fill(packets);
    for (size_t place = 0; place < count; place++)
        filled[place] = some_sent_packet();
    struct mortisevane_mirror mirror = some_mirror();
    struct mortisevane_mirrored then = CALL(mirror_run, mirror, to_read(packets), count);
    hold_mirrored(mirror, then);
    if (then.number != 0 || count > SHORT_RUN)
        return;
    for (size_t place = 0; place < count; place++)
        mirror = ask_step(mirror, filled[place]).mirror;
    hold(same_mirror(mirror, then.mirror), "a run is not its steps");
    kept_mirror = mirror;
}

void fuzz_mirror_closing(void)
{
    struct mortisevane_mirror mirror = some_mirror();
    struct mortisevane_built built = CALL(mirror_closing, mirror);
    answered(built.number);
    hold((built.number == 0) == (mirror.sum_register >> DATA_BITS == 0), "a register over 24 bits taken, or another refused");
    hold(built.number == 0 || built.packet.bits == 0, "a packet told although refused");
    if (built.number != 0)
        return;
    hold(ask_to_send(built.packet.bits) == 0, "a closing packet that is not to be sent");
    hold(ask_step(mirror, built.packet.bits).mirror.talking != 0, "the closing packet does not make the decoder talk");
}
