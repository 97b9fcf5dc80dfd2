/* Lent memory between pages that are inaccessible, for the fuzzing. */
#ifndef GUARD_H
#define GUARD_H

void map_memories(void);

/* What is told of a fault at an address: which memory was left, and to which side. */
const char *fault_told(const void *address);

#endif
