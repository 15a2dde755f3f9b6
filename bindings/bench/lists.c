// Makes the lists: a word is drawn, tried by hand-written C, and kept where it is done and its bases stay in the middle of memory.
#include "lists.h"
#include "hand.h"
#include <stdbool.h>
#include <string.h>

enum { FAMILIES = 9, LITERAL = 0, PAIR = 1, ORDERED = 2, POST = 4, PRE = 5, REGISTER = 6, EXCLUSIVE = 8 };

// The bits that make a word one of a family, and which those are.
static const struct {
    uint32_t mask, bits;
} families[FAMILIES] = {
    {0x3b000000, 0x18000000}, {0x3a000000, 0x28000000}, {0x3f200c00, 0x19000000},
    {0x3b200c00, 0x38000000}, {0x3b200c00, 0x38000400}, {0x3b200c00, 0x38000c00},
    {0x3b200c00, 0x38200800}, {0x3b000000, 0x39000000}, {0x3f200000, 0x08000000},
};

enum { MIXED, LOADS, STORES, PAIRS, WRITE_BACK, VECTORS };

const char *const list_kinds[] = {"mixed", "loads", "stores", "pairs", "write-back", "vectors"};

uint64_t random_number(uint64_t *seed) {
    *seed ^= *seed << 13;
    *seed ^= *seed >> 7;
    return *seed ^= *seed << 17;
}

static uint32_t below(uint64_t *seed, uint32_t limit) {
    return (uint32_t)(random_number(seed) >> 32) % limit;
}

static uint32_t word_of(uint64_t *seed, unsigned family) {
    return ((uint32_t)(random_number(seed) >> 32) & ~families[family].mask) | families[family].bits;
}

uint32_t random_word(uint64_t *seed) {
    return word_of(seed, below(seed, FAMILIES));
}

static uint32_t with_field(uint32_t word, unsigned at, uint32_t mask, uint32_t value) {
    return (word & ~(mask << at)) | (value & mask) << at;
}

static bool suits(unsigned kind, unsigned family, uint32_t word) {
    const bool vector = word >> 26 & 1;
    if (family == EXCLUSIVE || vector != (kind == VECTORS) || (kind == PAIRS && family != PAIR))
        return false;
    return kind != WRITE_BACK || family == POST || family == PRE || (family == PAIR && (word >> 23 & 1));
}

// A word that moves x9 to x30 and has x1 to x8 or sp as its base. x0 is the index, and no word changes it.
static uint32_t candidate(uint64_t *seed, unsigned kind) {
    unsigned family;
    uint32_t word;
    do {
        family = below(seed, FAMILIES);
        word = word_of(seed, family);
    } while (!suits(kind, family, word));
    word = with_field(word, 0, 31, 9 + below(seed, 22));
    if (family == LITERAL)
        return with_field(word, 5, 0x7ffff, below(seed, 0x4000) - 0x2000);
    word = with_field(word, 5, 31, below(seed, 9) == 0 ? 31 : 1 + below(seed, 8));
    if (family == PAIR)
        return with_field(word, 10, 31, 9 + below(seed, 22));
    return family == REGISTER ? with_field(word, 16, 31, 0) : word;
}

// Whether the bases are such that words with small offsets are done.
static bool is_central(const struct machine *machine) {
    for (unsigned i = 1; i < MILESTARLING_REGISTERS; i++) {
        const uint64_t at = machine->session.value[i] - machine->origin;
        if ((i < 9 || i == MILESTARLING_SP) && (at < CODE / 4 || at >= CODE / 4 * 3))
            return false;
    }
    return machine->session.value[MILESTARLING_SP] % 16 == 0;
}

static bool is_kept(const struct machine *machine, unsigned kind, struct milestarling_step_reply reply) {
    const bool store = reply.code >= MILESTARLING_STORE_CODE;
    if (reply.answer != MILESTARLING_DONE || reply.code == 0 || !is_central(machine))
        return false;
    return store ? kind != LOADS && reply.address - machine->origin < CODE - 32 : kind != STORES;
}

static void fill_start(struct machine *start, uint64_t *seed, unsigned number) {
    memset(start, 0, sizeof *start);
    start->origin = LIST_ORIGIN(number);
    start->session.pc = start->origin + CODE;
    start->session.value[0] = 0x38;
    for (unsigned i = 1; i < MILESTARLING_REGISTERS; i++)
        start->session.value[i] = start->origin + CODE / 2 + 16 * below(seed, 32);
    for (unsigned i = 0; i < MILESTARLING_VECTORS; i++)
        for (unsigned half = 0; half < 2; half++)
            start->vectors.value[i][half] = random_number(seed);
    for (unsigned i = 0; i < MEMORY; i++) {
        start->bytes[i] = (uint8_t)below(seed, 256);
        start->taint[i] = below(seed, 16) == 0;
    }
}

void make_list(struct list *list, unsigned kind, unsigned number) {
    static struct machine trial;
    uint64_t seed = UINT64_C(88172645463325252) + 1000 * kind + number;
    fill_start(&list->start, &seed, number);
    trial = list->start;
    for (unsigned i = 0; i < WORDS;) {
        const struct milestarling_session before = trial.session;
        const uint32_t word = candidate(&seed, kind);
        if (is_kept(&trial, kind, hand_step(memory_of(&trial), &trial.session, &trial.vectors, word)))
            list->words[i++] = word;
        else
            trial.session = before;
    }
    memcpy(list->start.bytes + CODE, list->words, sizeof list->words);
}
