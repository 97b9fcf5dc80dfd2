/*
 * The fuzzing: fuzz CALLS SEED makes so many calls of the library's exports with random input, and ends with status 1 at
 * the first answer that is not as the header says, at a fault, or where a call does not return; the seed and the number
 * of the call are then told, and the same seed leads there again. `fuzz --names` tells the exports that it knows.
 *
 * Three kinds of input go to every export: random bytes; random bytes with plausible fields (an ID of the right kind,
 * 21 bits, sizes near the limits); and good input, changed by a bit or not at all. What is to be handed back is kept
 * from call to call, and sometimes damaged or replaced by random bytes.
 *
 * At the end stands a table of the calls, how many were accepted and how many were refused by each number. The run fails
 * where an export had no accepted call or never gave a refusal that the header names for it: then it tried too little.
 */
#define _GNU_SOURCE
#include <inttypes.h>
#include <sanitizer/common_interface_defs.h>
#include <signal.h>
#include <stdio.h>
#include <stdlib.h>
#include <sys/time.h>
#include <unistd.h>

#include "fuzz.h"
#include "guard.h"

/* How long a call may take before it is taken to hang. */
enum { WATCH_SECONDS = 10 };

static uint64_t seed;

/* The few copies live to the end, and looking for leaks is not possible everywhere. */
const char *__asan_default_options(void)
{
    return "detect_leaks=0";
}

/* ---- What is told where something fails ---- */

/* Written without the C library's buffers, since a fault may have come anywhere. */
static void tell_failure(const char *what)
{
    char line[512];
    int length = snprintf(line, sizeof line, "fuzz: call %" PRIu64 " of seed %" PRIu64 ", %s in the turn of %s: %s\n",
        calls_made, seed, called_name(), turn_name(), what);
    if (write(STDERR_FILENO, line, (size_t)length) != length)
        _exit(2);
}

_Noreturn void fail(const char *what)
{
    tell_failure(what);
    _exit(1);
}

static void tell_sanitizer(void)
{
    tell_failure("the sanitizer's report stands above");
}

static void on_fault(int signal_number, siginfo_t *information, void *context)
{
    (void)context;
    if (signal_number == SIGSEGV || signal_number == SIGBUS)
        fail(fault_told(information->si_addr));
    fail(strsignal(signal_number));
}

/* Comes every WATCH_SECONDS: by then another call must have been made. */
static void on_watch(int signal_number)
{
    static uint64_t calls_at_last_look = UINT64_MAX;
    (void)signal_number;
    if (calls_made == calls_at_last_look)
        fail("does not return");
    calls_at_last_look = calls_made;
}

static void catch_faults(void)
{
    static const int faults[] = { SIGSEGV, SIGBUS, SIGILL, SIGFPE, SIGTRAP, SIGABRT };
    static uint8_t fault_stack[1 << 16];
    stack_t stack = { .ss_sp = fault_stack, .ss_size = sizeof fault_stack };
    struct sigaction on_signal = { .sa_sigaction = on_fault, .sa_flags = SA_SIGINFO | SA_ONSTACK };
    struct sigaction on_alarm = { .sa_handler = on_watch, .sa_flags = SA_RESTART | SA_ONSTACK };
    struct itimerval watch = { .it_interval.tv_sec = WATCH_SECONDS, .it_value.tv_sec = WATCH_SECONDS };
    sigaltstack(&stack, NULL);
    for (size_t place = 0; place < sizeof faults / sizeof *faults; place++)
        sigaction(faults[place], &on_signal, NULL);
    sigaction(SIGALRM, &on_alarm, NULL);
    setitimer(ITIMER_REAL, &watch, NULL);
    __sanitizer_set_death_callback(tell_sanitizer);
}

static uint64_t number_of(const char *text)
{
    char *end;
    uint64_t number = strtoull(text, &end, 10);
    if (*text < '0' || *text > '9' || *end != '\0') {
        fprintf(stderr, "fuzz: %s is no number\n", text);
        exit(2);
    }
    return number;
}

int main(int count, char **arguments)
{
    if (count == 2 && strcmp(arguments[1], "--names") == 0) {
        tell_names();
        return 0;
    }
    if (count != 3) {
        fprintf(stderr, "usage: fuzz CALLS SEED, or fuzz --names\n");
        return 2;
    }
    uint64_t calls_asked = number_of(arguments[1]);
    seed = number_of(arguments[2]);
    random_seed(seed);
    map_memories();
    catch_faults();
    while (calls_made < calls_asked)
        take_turn();
    bool enough = tell_table();
    printf("%" PRIu64 " calls with seed %" PRIu64 ": nothing outside what was lent, every number as the header says%s\n",
        calls_made, seed, enough ? "" : "; but not every answer came that the header names");
    return enough ? 0 : 1;
}
