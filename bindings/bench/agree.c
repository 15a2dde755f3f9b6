// Short random lists on random states in a small memory. What the library's run leaves is compared with what the others leave, its
// steps among them.
#include "agree.h"
#include "hand.h"
#include "peers.h"
#include <stdio.h>
#include <stdlib.h>
#include <string.h>

enum { TRIALS = 200000, SMALL = 1024, FEW = 4, ANSWERS = 9 };

// There is no padding in it, so that all of it is compared at once.
struct trial {
    struct milestarling_session session;
    struct milestarling_vectors vectors;
    struct milestarling_access trace[FEW];
    uint64_t steps, answer, code, address;
    uint8_t bytes[SMALL], taint[SMALL], statuses[2 * FEW];
};

static uint64_t seed = UINT64_C(2463534242), origin, readonly;
static uint32_t words[FEW];

static uint64_t below(uint64_t limit) {
    return (random_number(&seed) >> 16) % limit;
}

static struct milestarling_memory memory_of_trial(struct trial *trial) {
    return (struct milestarling_memory){trial->bytes, SMALL, trial->taint, SMALL, origin, readonly};
}

// Any byte but 0 is a taint.
static uint64_t random_taint(void) {
    return below(8) == 0 ? random_number(&seed) & random_number(&seed) & UINT64_C(0xff00ff0000ff00ff) : 0;
}

static uint64_t random_value(void) {
    switch (below(4)) {
    case 0:
        return below(64);
    case 1:
        return origin + below(2 * SMALL) - SMALL / 2;
    default:
        return origin + SMALL / 4 + 16 * below(SMALL / 32);
    }
}

static void fill(struct trial *trial) {
    memset(trial, 0, sizeof *trial);
    origin = below(8) == 0 ? (uint64_t)0 - SMALL : 16 * below(1 << 20);
    readonly = below(SMALL / 2);
    for (unsigned i = 0; i < MILESTARLING_REGISTERS; i++) {
        trial->session.value[i] = random_value();
        trial->session.value_taint[i].bytes = random_taint();
        for (unsigned half = 0; half < 2; half++) {
            trial->vectors.value[i][half] = random_number(&seed);
            trial->vectors.taint[i][half].bytes = random_taint();
        }
    }
    trial->session.pc = origin + 4 * below(SMALL / 4) + (below(64) == 0);
    trial->session.monitor_address = trial->session.value[1];
    trial->session.monitor_size = UINT64_C(1) << below(4);
    for (unsigned i = 0; i < SMALL; i++) {
        trial->bytes[i] = (uint8_t)random_number(&seed);
        trial->taint[i] = below(8) == 0 ? (uint8_t)random_number(&seed) : 0;
    }
}

// Offsets are often short, and exclusives often have all ones in the fields that they don't use, and x1 as their base.
static void draw_words(void) {
    for (unsigned i = 0; i < FEW; i++) {
        words[i] = random_word(&seed);
        if (below(2) == 0 && (words[i] & 0x3b000000) == 0x18000000)
            words[i] &= 0xff00fe1f;
        if (below(2) == 0 && (words[i] & 0x3b000000) == 0x39000000)
            words[i] &= 0xffc0ffff;
        if (below(4) != 0 && (words[i] & 0x3f000000) == 0x08000000)
            words[i] = (words[i] & 0xfffffc1f) | 0x7c20 | (below(2) == 0 ? 0x1f0000 : 0);
    }
}

static void by_run(struct trial *trial) {
    const struct milestarling_run_reply reply = milestarling_session_run(
        memory_of_trial(trial), &trial->session, &trial->vectors, words, FEW, trial->trace, FEW, trial->statuses, FEW);
    trial->steps = reply.steps;
    trial->answer = reply.answer;
    trial->code = reply.code;
    trial->address = reply.address;
}

static void by_hand_run(struct trial *trial) {
    const struct hand_reply reply =
        hand_run(memory_of_trial(trial), &trial->session, &trial->vectors, words, FEW, trial->trace, FEW, trial->statuses, FEW);
    trial->steps = reply.steps;
    trial->answer = reply.answer;
    trial->code = reply.code;
    trial->address = reply.address;
}

static void by_reference_run(struct trial *trial) {
    const struct milestarling_memory memory = memory_of_trial(trial);
    struct reference_state *state = reference_begin(&trial->session, &trial->vectors);
    struct reference_reply reply;
    reference_run(&memory, state, words, FEW, trial->trace, trial->statuses, &reply);
    trial->steps = reply.steps;
    trial->answer = reply.answer;
    trial->code = reply.code;
    trial->address = reply.address;
    reference_end(state, &trial->session, &trial->vectors);
}

static void by_steps(struct trial *trial,
    struct milestarling_step_reply (*step)(
        struct milestarling_memory, struct milestarling_session *, struct milestarling_vectors *, uint32_t)) {
    for (; trial->steps < FEW; trial->steps++) {
        const struct milestarling_step_reply reply =
            step(memory_of_trial(trial), &trial->session, &trial->vectors, words[trial->steps]);
        trial->answer = reply.answer;
        trial->code = reply.code;
        trial->address = reply.address;
        if (reply.answer != MILESTARLING_DONE)
            return;
        trial->trace[trial->steps] = (struct milestarling_access){reply.code, reply.address};
        trial->statuses[trial->steps] = (uint8_t)reply.status;
    }
}

static void compare(const char *peer, const struct trial *right, const struct trial *other) {
    if (memcmp(right, other, sizeof *right) == 0)
        return;
    fprintf(stderr, "agree: %s does something else than a run of the library: %08x %08x %08x %08x, answer %llu and not %llu\n", peer,
        words[0], words[1], words[2], words[3], (unsigned long long)other->answer, (unsigned long long)right->answer);
    exit(1);
}

// A taint is any number but 0 until it is moved: the reference has it as 1 at once.
static void normalise(struct trial *trial) {
    for (unsigned i = 0; i < MILESTARLING_REGISTERS; i++) {
        uint8_t *general = (uint8_t *)&trial->session.value_taint[i], *vector = (uint8_t *)trial->vectors.taint[i];
        for (unsigned byte = 0; byte < 16; byte++) {
            if (byte < 8)
                general[byte] = general[byte] != 0;
            vector[byte] = vector[byte] != 0;
        }
    }
}

void agree(void) {
    static struct trial start, right, other;
    unsigned seen[ANSWERS] = {0};
    for (unsigned i = 0; i < TRIALS; i++) {
        fill(&start);
        draw_words();
        right = start;
        by_run(&right);
        seen[right.answer]++;
        other = start;
        by_hand_run(&other);
        compare("a run by hand", &right, &other);
        other = start;
        by_steps(&other, hand_step);
        compare("a step by hand", &right, &other);
        other = start;
        by_steps(&other, milestarling_session_step);
        compare("a step of the library", &right, &other);
        other = start;
        by_reference_run(&other);
        normalise(&right);
        compare("plain Rust", &right, &other);
    }
    printf("%d random lists of %d words, by answer:", TRIALS, FEW);
    for (unsigned answer = 0; answer < ANSWERS; answer++)
        printf(" %u", seen[answer]);
    printf("; all had left the same.\n");
}
