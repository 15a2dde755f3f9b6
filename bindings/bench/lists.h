// The lists of the benchmark: random words of one kind that are all done, each with an access, and what they start from.
#ifndef LISTS_H
#define LISTS_H

#include "../../include/milestarling.h"

enum {
    // Words of a list, and the bytes of its memory, of which so many at the start are read-only.
    WORDS = 4096,
    MEMORY = 0x20000,
    READONLY = 0x1000,
    // Where the words stand in memory, for Unicorn to run and literals to load. Nothing is stored from there on.
    CODE = 0x10000,
};

// Lists stand at different addresses, so that all can be in one memory of Unicorn's.
#define LIST_ORIGIN(number) (UINT64_C(0x1000000) + (uint64_t)(number) * MEMORY)

// All that a run works on, and what it leaves.
struct machine {
    struct milestarling_session session;
    struct milestarling_vectors vectors;
    uint64_t origin;
    uint8_t bytes[MEMORY], taint[MEMORY], statuses[WORDS];
    struct milestarling_access trace[WORDS];
};

struct list {
    uint32_t words[WORDS];
    struct machine start;
};

static inline struct milestarling_memory memory_of(struct machine *machine) {
    return (struct milestarling_memory){machine->bytes, MEMORY, machine->taint, MEMORY, machine->origin, READONLY};
}

extern const char *const list_kinds[];
enum { LIST_KINDS = 6 };

uint64_t random_number(uint64_t *seed);

// A word of one of the lines of 01's table or 02's, allocated or not.
uint32_t random_word(uint64_t *seed);

// Makes a list of a kind by its place in list_kinds; the number gives its address and its seed.
void make_list(struct list *list, unsigned kind, unsigned number);

#endif
