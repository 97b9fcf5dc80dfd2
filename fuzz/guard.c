/*
 * Lent memory in which an access outside of a row shows. The library's code knows nothing of the sanitizers, so the
 * memory itself must: a row ends right before an inaccessible page or begins right after one, and a row for reading lies
 * in pages that cannot be written, which are mapped twice. What is after a row at the front, and before one at the end, is
 * compared after each call.
 */
#define _GNU_SOURCE
#include <stdio.h>
#include <stdlib.h>
#include <sys/mman.h>
#include <unistd.h>

#include "fuzz.h"
#include "guard.h"

static const char *const memory_names[MEMORY_COUNT] = { "what is lent for reading", "what is lent for writing",
    "the buffer of chains", "the words of calls", "the words of POCSAG pages" };

static void must(bool done, const char *what)
{
    if (!done) {
        perror(what);
        exit(1);
    }
}

/* The pages of a file between two that are inaccessible. */
static uint8_t *map_between_guards(int file, int protection)
{
    uint8_t *reserved = mmap(NULL, PAGE_BYTES + MEMORY_BYTES + PAGE_BYTES, PROT_NONE,
        MAP_PRIVATE | MAP_ANONYMOUS | MAP_NORESERVE, -1, 0);
    must(reserved != MAP_FAILED, "reserving pages");
    uint8_t *pages = mmap(reserved + PAGE_BYTES, MEMORY_BYTES, protection, MAP_SHARED | MAP_FIXED, file, 0);
    must(pages != MAP_FAILED, "mapping pages");
    return pages;
}

static void map_memory(struct memory *memory)
{
    int file = memfd_create("lent", 0);
    must(file >= 0 && ftruncate(file, MEMORY_BYTES) == 0, "a file in memory");
    memory->writable = map_between_guards(file, PROT_READ | PROT_WRITE);
    memory->read_only = map_between_guards(file, PROT_READ);
    memory->before = malloc(MEMORY_BYTES);
    must(memory->before != NULL, "memory for a copy");
    close(file);
    fill_memory(memory);
}

void map_memories(void)
{
    must(sysconf(_SC_PAGESIZE) == PAGE_BYTES, "pages of 4096 bytes");
    for (int place = 0; place < MEMORY_COUNT; place++)
        map_memory(memories[place]);
}

/* What a fault at an address is, as seen from pages; NULL where it is far from them. Within them only a write faults. */
static const char *fault_at(const uint8_t *pages, const uint8_t *address)
{
    if (address >= pages - PAGE_BYTES && address < pages)
        return "an access before";
    if (address >= pages && address < pages + MEMORY_BYTES)
        return "a write to the read-only pages of";
    if (address >= pages + MEMORY_BYTES && address < pages + MEMORY_BYTES + PAGE_BYTES)
        return "an access after";
    return NULL;
}

const char *fault_told(const void *address)
{
    static char sentence[128];
    for (int place = 0; place < MEMORY_COUNT; place++) {
        const char *fault = fault_at(memories[place]->writable, address);
        if (fault == NULL)
            fault = fault_at(memories[place]->read_only, address);
        if (fault != NULL) {
            snprintf(sentence, sizeof sentence, "%s %s", fault, memory_names[place]);
            return sentence;
        }
    }
    return "an access far from all that is lent";
}
