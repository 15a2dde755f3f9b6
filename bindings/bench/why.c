// Times the question why the lowest byte of x1 is tainted after a million steps: where each step stores it or loads it, so that
// its path has a link for each, and where none touches it, so that it has one. Both paths are compared with what they have to
// be, and the best of seven times counts.
#include "../../include/milestarling.h"
#include "measure.h"

enum { STEPS = 1000000, ORIGIN = 0x1000, LENGTH = 64, ROUNDS = 7 };

static uint32_t words[STEPS];
static uint8_t statuses[STEPS], taint[LENGTH];
static struct milestarling_access trace[STEPS];
static struct milestarling_link links[STEPS + 1];

// Every second step is the first word, by its code, and the others are the second.
static void fill(uint32_t first, uint64_t first_code, uint32_t second, uint64_t second_code) {
    for (size_t i = 0; i < STEPS; i++) {
        words[i] = i % 2 == 0 ? first : second;
        trace[i].code = i % 2 == 0 ? first_code : second_code;
        trace[i].address = ORIGIN;
    }
}

// Whether the links alternate between x1 and memory, and go back a step each.
static int alternate(uint64_t count) {
    for (uint64_t i = 0; i < count; i++) {
        const uint64_t kind = i % 2 == 0 ? MILESTARLING_PLACE_REGISTER : MILESTARLING_PLACE_MEMORY;
        const uint64_t number = i % 2 == 0 ? 1 * MILESTARLING_LINK_BYTES : ORIGIN;
        if (links[i].kind != kind || links[i].number != number || links[i].step != count - 1 - i)
            return 0;
    }
    return 1;
}

static void measure(const char *name, uint64_t count) {
    struct milestarling_session session = {0};
    struct milestarling_vectors vectors = {0};
    const struct milestarling_start start = {&session, &vectors, taint, LENGTH, ORIGIN, 0, LENGTH};
    const struct milestarling_history history = {words, STEPS, trace, STEPS, statuses, STEPS, STEPS};
    double best = 0;
    milestarling_set_register(&session, 1, 0, milestarling_taint_bytes(0, 1));
    for (int round = 0; round < ROUNDS; round++) {
        const double began = now();
        const struct milestarling_why_reply why =
            milestarling_session_why(start, history, STEPS, milestarling_place_register(1, 0), links, STEPS + 1);
        const double seconds = now() - began;
        if (why.answer != MILESTARLING_DONE || why.links != count || !alternate(count)) {
            fprintf(stderr, "why: %s: answer %llu, %llu links\n", name, (unsigned long long)why.answer,
                (unsigned long long)why.links);
            exit(1);
        }
        best = round == 0 || seconds < best ? seconds : best;
    }
    printf("why, %s: steps %d, links %llu, %.3f s\n", name, STEPS, (unsigned long long)count, best);
}

int main(void) {
    fill(0xf9000041, 72, 0xf9400041, 8); // str x1, [x2]; ldr x1, [x2]
    measure("a link a step", STEPS + 1);
    fill(0xf9000040, 72, 0xf9400043, 8); // str x0, [x2]; ldr x3, [x2]
    measure("no step of it", 1);
    return 0;
}
