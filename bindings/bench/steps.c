// Times runs and steps of the library beside C by hand, plain Rust and Unicorn: over so many lists in turn that no processor learns
// them by heart. First all but Unicorn do random words, refused ones among them; and each time that a list is done, what is left
// is compared.
//
//   steps [KIND]
//
// All kinds of lists are timed, or one. A peer does all lists of a kind one after the other, and then the next peer does. Of each list
// the best of seven times counts, so that a busy moment harms none; what is lent is set up and compared outside of it.
#include "agree.h"
#include "hand.h"
#include "measure.h"
#include "peers.h"
#include <stdbool.h>

enum { LISTS = 48, ROUNDS = 7, WAYS = 3, PEERS = 6 };

static struct list lists[LISTS];
static struct machine machine, expected[LISTS];

static _Noreturn void fail(const char *what, const char *peer, const char *where) {
    fprintf(stderr, "steps: %s: %s, %s\n", peer, what, where);
    exit(1);
}

// One list, as runs of so many words each, or by steps where that is 0.
typedef void passing(const uint32_t *words, size_t length);

static void by_library(const uint32_t *words, size_t length) {
    const struct milestarling_memory memory = memory_of(&machine);
    for (size_t i = 0; length != 0 && i < WORDS; i += length) {
        const struct milestarling_run_reply reply = milestarling_session_run(memory, &machine.session, &machine.vectors, words + i,
            length, machine.trace + i, length, machine.statuses + i, length);
        if (reply.answer != MILESTARLING_DONE)
            return;
    }
    for (size_t i = 0; length == 0 && i < WORDS; i++) {
        const struct milestarling_step_reply reply = milestarling_session_step(memory, &machine.session, &machine.vectors, words[i]);
        if (reply.answer != MILESTARLING_DONE)
            return;
        machine.trace[i] = (struct milestarling_access){reply.code, reply.address};
        machine.statuses[i] = (uint8_t)reply.status;
    }
}

static void by_hand(const uint32_t *words, size_t length) {
    const struct milestarling_memory memory = memory_of(&machine);
    for (size_t i = 0; length != 0 && i < WORDS; i += length) {
        const struct hand_reply reply = hand_run(memory, &machine.session, &machine.vectors, words + i, length, machine.trace + i,
            length, machine.statuses + i, length);
        if (reply.answer != MILESTARLING_DONE)
            return;
    }
    for (size_t i = 0; length == 0 && i < WORDS; i++) {
        const struct milestarling_step_reply reply = hand_step(memory, &machine.session, &machine.vectors, words[i]);
        if (reply.answer != MILESTARLING_DONE)
            return;
        machine.trace[i] = (struct milestarling_access){reply.code, reply.address};
        machine.statuses[i] = (uint8_t)reply.status;
    }
}

static struct reference_state *reference;

// Its run works in place, so that it is its step too.
static void by_reference(const uint32_t *words, size_t length) {
    const struct milestarling_memory memory = memory_of(&machine);
    const size_t each = length == 0 ? 1 : length;
    struct reference_reply reply;
    for (size_t i = 0; i < WORDS; i += each) {
        reference_run(&memory, reference, words + i, each, machine.trace + i, machine.statuses + i, &reply);
        if (reply.answer != MILESTARLING_DONE)
            return;
    }
}

#ifdef HAS_UNICORN
static void by_unicorn(const uint32_t *words, size_t length) {
    (void)words;
    unicorn_run(0, machine.session.pc, WORDS, length == 0 ? 1 : length);
}

static void by_hooked_unicorn(const uint32_t *words, size_t length) {
    (void)words;
    unicorn_run(1, machine.session.pc, WORDS, length == 0 ? 1 : length);
}
#endif

enum { LIBRARY, HAND, REFERENCE, HOOKED, ANEW, UNHOOKED };

static const struct {
    const char *name;
    passing *pass;
} peers[PEERS] = {
    {"Milestarling", by_library},
    {"C by hand", by_hand},
    {"plain Rust", by_reference},
#ifdef HAS_UNICORN
    {"Unicorn, hook", by_hooked_unicorn},
    {"the same, anew", by_hooked_unicorn},
    {"Unicorn, no hook", by_unicorn},
#else
    {"Unicorn, hook", NULL},
    {"the same, anew", NULL},
    {"Unicorn, no hook", NULL},
#endif
};

static const struct {
    const char *name;
    size_t length;
} ways[WAYS] = {{"runs of 4,096 words", WORDS}, {"runs of one word", 1}, {"steps", 0}};

// The best seconds of each list of the kind that is measured, 0 where it wasn't done; and of each kind their mean, a step.
static double times[WAYS][PEERS][LISTS], best[LIST_KINDS][WAYS][PEERS];

// How many of the lists a peer does: none where it isn't there or would be told nothing new.
static unsigned lists_of(unsigned way, unsigned peer, unsigned round) {
    if (peers[peer].pass == NULL || (way == 1 && peer >= HOOKED))
        return 0;
    if (peer < HOOKED)
        return LISTS;
    if (way == 2)
        return peer == HOOKED && round < 2 ? 2 : 0;
    return peer != ANEW || round < 2 ? LISTS : 0;
}

static void prepare(unsigned peer, const struct list *list) {
    machine = list->start;
    if (peer == REFERENCE)
        reference = reference_begin(&machine.session, &machine.vectors);
#ifdef HAS_UNICORN
    if (peer >= HOOKED)
        unicorn_begin(peer != UNHOOKED, &machine);
    if (peer == ANEW)
        unicorn_forget(1);
#endif
}

// What Unicorn doesn't have, it is given.
static void finish(unsigned peer, const struct machine *right) {
    if (peer == REFERENCE)
        reference_end(reference, &machine.session, &machine.vectors);
#ifdef HAS_UNICORN
    if (peer >= HOOKED) {
        machine = *right;
        unicorn_end(peer != UNHOOKED, &machine);
    }
#else
    (void)right;
#endif
}

static void compare(const char *peer, const char *kind, const struct machine *right) {
    if (memcmp(&machine.session, &right->session, sizeof machine.session) != 0)
        fail("the registers are others than by hand", peer, kind);
    if (memcmp(&machine.vectors, &right->vectors, sizeof machine.vectors) != 0)
        fail("the vector registers are others than by hand", peer, kind);
    if (memcmp(machine.bytes, right->bytes, sizeof machine.bytes) != 0)
        fail("memory is another than by hand", peer, kind);
    if (memcmp(machine.taint, right->taint, sizeof machine.taint) != 0)
        fail("memory's taints are others than by hand", peer, kind);
    if (memcmp(machine.trace, right->trace, sizeof machine.trace) != 0)
        fail("the trace is another than by hand", peer, kind);
    if (memcmp(machine.statuses, right->statuses, sizeof machine.statuses) != 0)
        fail("the statuses are others than by hand", peer, kind);
}

static void measure(unsigned kind, unsigned way, unsigned peer, unsigned round) {
    const unsigned count = lists_of(way, peer, round);
    for (unsigned i = 0; i < count; i++) {
        double *least = &times[way][peer][i];
        prepare(peer, &lists[i]);
        const double began = now();
        peers[peer].pass(lists[i].words, ways[way].length);
        const double taken = now() - began;
        finish(peer, &expected[i]);
        compare(peers[peer].name, list_kinds[kind], &expected[i]);
        *least = *least == 0 || taken < *least ? taken : *least;
    }
}

static double mean_step(const double *seconds) {
    double sum = 0;
    unsigned count = 0;
    for (unsigned i = 0; i < LISTS; i++) {
        sum += seconds[i];
        count += seconds[i] != 0;
    }
    return count == 0 ? 0 : sum / count / WORDS;
}

static void measure_kind(unsigned kind) {
    for (unsigned i = 0; i < LISTS; i++) {
        make_list(&lists[i], kind, i);
        machine = lists[i].start;
        by_hand(lists[i].words, WORDS);
        expected[i] = machine;
    }
#ifdef HAS_UNICORN
    unicorn_open(lists, LISTS);
#endif
    memset(times, 0, sizeof times);
    for (unsigned round = 0; round < ROUNDS; round++)
        for (unsigned way = 0; way < WAYS; way++)
            for (unsigned peer = 0; peer < PEERS; peer++)
                measure(kind, way, peer, round);
    for (unsigned way = 0; way < WAYS; way++)
        for (unsigned peer = 0; peer < PEERS; peer++)
            best[kind][way][peer] = mean_step(times[way][peer]);
#ifdef HAS_UNICORN
    unicorn_close();
#endif
}

static void show(void) {
    printf("Nanoseconds a step, and how many times as long as ours it takes: %d lists of %d words in turn.\n", LISTS, WORDS);
    for (unsigned way = 0; way < WAYS; way++) {
        printf("\n%-20s", ways[way].name);
        for (unsigned peer = 0; peer < PEERS; peer++)
            printf("%18s", peers[peer].name);
        printf("\n");
        for (unsigned kind = 0; kind < LIST_KINDS; kind++) {
            if (best[kind][way][LIBRARY] == 0)
                continue;
            printf("    %-16s%18.1f", list_kinds[kind], best[kind][way][LIBRARY] * 1e9);
            for (unsigned peer = HAND; peer < PEERS; peer++)
                if (best[kind][way][peer] == 0)
                    printf("%18s", "-");
                else
                    printf("%10.1f (%5.2f)", best[kind][way][peer] * 1e9, best[kind][way][peer] / best[kind][way][LIBRARY]);
            printf("\n");
        }
    }
}

int main(int count, char **arguments) {
    agree();
    for (unsigned kind = 0; kind < LIST_KINDS; kind++)
        if (count == 1 || strcmp(arguments[1], list_kinds[kind]) == 0)
            measure_kind(kind);
    show();
    return 0;
}
