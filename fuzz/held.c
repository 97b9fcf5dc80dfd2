/* The turns of the exports, and what is held of every call and counted. */
#include <inttypes.h>
#include <stdio.h>

#include "fuzz.h"

/* 01 has refusals 1 to 18, 02's first item 19 to 21 and its fifth 25 and 26; 0 is for none. */
enum { REFUSAL_COUNT = MORTISEVANE_REFUSED_NO_SYNC };

struct exported {
    const char *name;
    uint32_t refusals;
    void (*fuzz)(void);
};

static const struct exported exports[] = {
#define EXPORT(name, refusals) { "mortisevane_" #name, refusals, fuzz_##name },
#include "exports.inc"
#undef EXPORT
};

uint64_t calls_made;
static enum export current;

/* The export whose turn it is; answers are held to those of other exports, so the current call may be another's. */
static enum export turn;
static uint64_t counts[EXPORT_COUNT][REFUSAL_COUNT + 1];

const char *called_name(void)
{
    return exports[current].name;
}

const char *turn_name(void)
{
    return exports[turn].name;
}

void take_turn(void)
{
    turn = (enum export)random_between(one_in(2) ? 0 : EXPORT_mirror_step, EXPORT_COUNT - 1);
    exports[turn].fuzz();
}

/* ---- What is held of every call ---- */

void begin_call(enum export called)
{
    current = called;
    calls_made++;
}

void hold(bool truth, const char *what)
{
    if (!truth)
        fail(what);
}

void answered(uint32_t number)
{
    hold(number <= REFUSAL_COUNT, "a number that no refusal has");
    hold(number == 0 || (exports[current].refusals >> number & 1) != 0, "a refusal that the header does not name for it");
    counts[current][number]++;
}

void hold_room(uint32_t number, size_t lent, size_t enough)
{
    hold(number != MORTISEVANE_REFUSED_ROOM || lent < enough, "refuses room that is enough");
}

bool all_zero(const void *bytes, size_t length)
{
    const uint8_t *looked_at = bytes;
    while (length > 0 && *looked_at == 0) {
        looked_at++;
        length--;
    }
    return length == 0;
}

/* ---- The table, and whether enough was tried ---- */

static bool tell_export(enum export told)
{
    bool enough = counts[told][0] > 0;
    uint64_t calls = 0;
    for (int number = 0; number <= REFUSAL_COUNT; number++)
        calls += counts[told][number];
    printf("%-36s %9" PRIu64 " %9" PRIu64 " ", exports[told].name, calls, counts[told][0]);
    for (int number = 1; number <= REFUSAL_COUNT; number++) {
        if ((exports[told].refusals >> number & 1) == 0)
            continue;
        printf(" %d:%" PRIu64, number, counts[told][number]);
        enough = enough && counts[told][number] > 0;
    }
    printf(enough ? "\n" : "  NOT ENOUGH\n");
    return enough;
}

bool tell_table(void)
{
    bool enough = true;
    printf("%-36s %9s %9s  %s\n", "export", "calls", "accepted", "refused, by number");
    for (int told = 0; told < EXPORT_COUNT; told++)
        enough = tell_export((enum export)told) && enough;
    return enough;
}

void tell_names(void)
{
    for (int named = 0; named < EXPORT_COUNT; named++)
        puts(exports[named].name);
}
