// Does words of lists for an instruction counter to count: in runs of 4,096 words, or a word at a time, by the library or by hand.
//
//   count run|step|hand_run|hand_step LIST
//
// A list is a pattern of few words again and again, in which nothing is tainted; or, by the name of a kind with many_ before it, three
// lists of the benchmark. All is prepared before, so that what is to be counted is what the function of the way does, by_ and its
// name. Every step must be done.
#include "hand.h"
#include "lists.h"
#include <stdio.h>
#include <stdlib.h>
#include <string.h>

enum { LISTS = 3 };

static const uint32_t loads[] = {
    0xf9400425, // ldr x5, [x1, #8]
    0xb9400c26, // ldr w6, [x1, #12]
    0x39401027, // ldrb w7, [x1, #4]
    0x79401028, // ldrh w8, [x1, #8]
    0xb9801029, // ldrsw x9, [x1, #16]
    0xf8626825, // ldr x5, [x1, x2]
    0xf8408426, // ldr x6, [x1], #8
    0xf85f8c27, // ldr x7, [x1, #-8]!
};
static const uint32_t stores[] = {
    0xf9000425, // str x5, [x1, #8]
    0xb9000c26, // str w6, [x1, #12]
    0x39001027, // strb w7, [x1, #4]
    0x79001028, // strh w8, [x1, #8]
    0xf8226825, // str x5, [x1, x2]
    0xf8008426, // str x6, [x1], #8
    0xf81f8c27, // str x7, [x1, #-8]!
    0xf9000829, // str x9, [x1, #16]
};
static const uint32_t mixed[] = {
    0xf9400425, // ldr x5, [x1, #8]
    0xa9411825, // ldp x5, x6, [x1, #16]
    0xf9000c26, // str x6, [x1, #24]
    0x39401027, // ldrb w7, [x1, #4]
    0xa9021825, // stp x5, x6, [x1, #32]
    0xb9801029, // ldrsw x9, [x1, #16]
    0xf8408426, // ldr x6, [x1], #8
    0xf81f8c27, // str x7, [x1, #-8]!
};
static const uint32_t vectors[] = {
    0x3dc00425, // ldr q5, [x1, #16]
    0xad401c26, // ldp q6, q7, [x1]
    0x3d800825, // str q5, [x1, #32]
    0xad021c26, // stp q6, q7, [x1, #64]
    0xfd400428, // ldr d8, [x1, #8]
    0xbd000c28, // str s8, [x1, #12]
    0x3cc10429, // ldr q9, [x1], #16
    0x3c9f0c29, // str q9, [x1, #-16]!
};
static const uint32_t load[] = {0xf9400425};    // ldr x5, [x1, #8]
static const uint32_t store[] = {0xf9000425};   // str x5, [x1, #8]
static const uint32_t load_q[] = {0x3dc00425};  // ldr q5, [x1, #16]
static const uint32_t store_q[] = {0x3d800825}; // str q5, [x1, #32]

static const struct {
    const char *name;
    const uint32_t *words;
    size_t length;
} patterns[] = {
    {"mixed", mixed, sizeof mixed / 4},
    {"loads", loads, sizeof loads / 4},
    {"stores", stores, sizeof stores / 4},
    {"vectors", vectors, sizeof vectors / 4},
    {"ldr", load, sizeof load / 4},
    {"str", store, sizeof store / 4},
    {"ldr_q", load_q, sizeof load_q / 4},
    {"str_q", store_q, sizeof store_q / 4},
};

static struct list lists[LISTS];

static void fail(const char *what) {
    fprintf(stderr, "count: %s\n", what);
    exit(1);
}

static void fill_pattern(struct list *list, size_t pattern) {
    list->start.origin = LIST_ORIGIN(0);
    milestarling_set_register(&list->start.session, 1, list->start.origin + MEMORY / 2, MILESTARLING_TAINT_NONE);
    milestarling_set_register(&list->start.session, 2, 64, MILESTARLING_TAINT_NONE);
    for (size_t i = 0; i < WORDS; i++)
        list->words[i] = patterns[pattern].words[i % patterns[pattern].length];
}

static void fill_lists(const char *name) {
    for (unsigned kind = 0; kind < LIST_KINDS; kind++)
        if (strncmp(name, "many_", 5) == 0 && strcmp(name + 5, list_kinds[kind]) == 0) {
            for (unsigned i = 0; i < LISTS; i++)
                make_list(&lists[i], kind, i);
            return;
        }
    for (size_t pattern = 0; pattern < sizeof patterns / sizeof *patterns; pattern++)
        if (strcmp(name, patterns[pattern].name) == 0) {
            for (unsigned i = 0; i < LISTS; i++)
                fill_pattern(&lists[i], pattern);
            return;
        }
    fail("no such list");
}

static uint64_t by_run(struct list *list) {
    struct machine *machine = &list->start;
    return milestarling_session_run(memory_of(machine), &machine->session, &machine->vectors, list->words, WORDS, machine->trace, WORDS,
        machine->statuses, WORDS).answer;
}

static uint64_t by_hand_run(struct list *list) {
    struct machine *machine = &list->start;
    return hand_run(memory_of(machine), &machine->session, &machine->vectors, list->words, WORDS, machine->trace, WORDS,
        machine->statuses, WORDS).answer;
}

static uint64_t by_step(struct list *list) {
    struct machine *machine = &list->start;
    uint64_t answer = MILESTARLING_DONE;
    for (size_t i = 0; i < WORDS && answer == MILESTARLING_DONE; i++)
        answer = milestarling_session_step(memory_of(machine), &machine->session, &machine->vectors, list->words[i]).answer;
    return answer;
}

static uint64_t by_hand_step(struct list *list) {
    struct machine *machine = &list->start;
    uint64_t answer = MILESTARLING_DONE;
    for (size_t i = 0; i < WORDS && answer == MILESTARLING_DONE; i++)
        answer = hand_step(memory_of(machine), &machine->session, &machine->vectors, list->words[i]).answer;
    return answer;
}

static const struct {
    const char *name;
    uint64_t (*pass)(struct list *list);
} ways[] = {{"run", by_run}, {"step", by_step}, {"hand_run", by_hand_run}, {"hand_step", by_hand_step}};

int main(int count, char **arguments) {
    size_t way = 0;
    if (count != 3)
        fail("usage: count run|step|hand_run|hand_step LIST");
    while (strcmp(ways[way].name, arguments[1]) != 0)
        if (++way == sizeof ways / sizeof *ways)
            fail("no such way");
    fill_lists(arguments[2]);
    for (unsigned i = 0; i < LISTS; i++)
        if (ways[way].pass(&lists[i]) != MILESTARLING_DONE)
            fail("a step was refused");
    printf("%d\n", LISTS * WORDS);
    return 0;
}
