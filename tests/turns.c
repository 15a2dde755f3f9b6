/*
 * Turns of two plugins on one memory, over the library, held against answers that were worked out by hand from document 02, CR 11:
 * ranges at every edge, accesses across every edge, the order of refusals, and sequences of turns. An access at every address of
 * the window and around it is held against the ranges byte by byte. What a turn has done is always what a run of as many words
 * leaves, and with none done nothing is changed.
 */
#include <inttypes.h>
#include <stdio.h>
#include <stdlib.h>
#include <string.h>

#include "milestarling.h"

enum { ORIGIN = 0x1000, LENGTH = 160, END = ORIGIN + LENGTH, MOST = 4 };

/* The address of the first of 160 bytes that end where the address space does. */
#define TOP (UINT64_MAX - LENGTH + 1)
#define COUNT(list) (sizeof(list) / sizeof *(list))

/* A plugin with the memory that its turn is on, and what is lent to the turn; a taint byte more than memory needs. */
struct machine {
    struct milestarling_session session;
    struct milestarling_vectors vectors;
    uint8_t bytes[LENGTH], taint[LENGTH + 1];
    uint64_t trace[MILESTARLING_TRACE_NUMBERS * MOST];
    uint8_t statuses[MOST];
};

struct call {
    struct machine machine;
    struct milestarling_ranges ranges;
    uint64_t origin;
    size_t length, taint_length, trace_length, statuses_length, words_length;
    uint32_t words[MOST];
};

/* Nobody's bytes from 1000 on, and from 1080 on; between them the three ranges touch. */
static const struct milestarling_ranges in_order = {{0x1020, 32}, {0x1040, 32}, {0x1060, 32}};

static int tried;

static void hold(int holds, const char *what)
{
    if (!holds) {
        printf("doesn't hold: %s\n", what);
        exit(1);
    }
}

static uint32_t word_of(const char *line)
{
    const struct milestarling_word_reply read = milestarling_word((const uint8_t *)line, strlen(line));
    hold(read.answer == MILESTARLING_DONE, line);
    return (uint32_t)read.word;
}

static void set(struct call *call, uint32_t number, uint64_t value)
{
    milestarling_set_register(&call->machine.session, number, value, MILESTARLING_TAINT_NONE);
}

static void add(struct call *call, const char *line)
{
    call->words[call->words_length++] = word_of(line);
}

/* No words yet. Memory counts upwards from 1, and every third byte is tainted. */
static struct call begin(struct milestarling_ranges ranges)
{
    struct call call;
    memset(&call, 0, sizeof call);
    memset(call.machine.trace, 0xee, sizeof call.machine.trace);
    memset(call.machine.statuses, 0xee, sizeof call.machine.statuses);
    for (size_t i = 0; i < LENGTH; i++) {
        call.machine.bytes[i] = (uint8_t)(i + 1);
        call.machine.taint[i] = i % 3 == 0 ? (uint8_t)(i + 1) : 0;
    }
    call.ranges = ranges;
    call.origin = ORIGIN;
    call.length = call.taint_length = LENGTH;
    call.trace_length = MILESTARLING_TRACE_NUMBERS * MOST;
    call.statuses_length = MOST;
    return call;
}

static struct milestarling_run_reply take(struct call *call)
{
    struct machine *machine = &call->machine;
    const struct milestarling_run_reply reply = milestarling_turn(call->words, call->words_length, machine->session,
        machine->vectors.value, machine->vectors.taint, call->origin, call->ranges, machine->bytes, call->length, machine->taint,
        call->taint_length, machine->trace, call->trace_length, machine->statuses, call->statuses_length);
    machine->session = reply.session;
    tried++;
    return reply;
}

/* What a run of so many words leaves, with nothing read-only. */
static void run_alone(struct call *call, uint64_t steps)
{
    struct machine *machine = &call->machine;
    const struct milestarling_run_reply reply = milestarling_run(call->words, (size_t)steps, machine->session,
        machine->vectors.value, machine->vectors.taint, call->origin, 0, machine->bytes, call->length, machine->taint,
        call->taint_length, machine->trace, call->trace_length, machine->statuses, call->statuses_length);
    hold(reply.answer == MILESTARLING_DONE, "the steps of a turn, in a run");
    machine->session = reply.session;
}

/* Takes the turn, and holds what it answers and all that it leaves. */
static void expect(struct call *call, uint64_t answer, uint64_t steps, uint64_t code, uint64_t address, const char *what)
{
    struct call alone;
    memcpy(&alone, call, sizeof alone);
    const struct milestarling_run_reply reply = take(call);
    if (reply.answer != answer || reply.steps != steps || reply.code != code || reply.address != address)
        printf("answer %" PRIu64 ", %" PRIu64 " steps, code %" PRIu64 " at %" PRIx64 "; and not %" PRIu64 ", %" PRIu64 ", %" PRIu64
            " at %" PRIx64 ": ", reply.answer, reply.steps, reply.code, reply.address, answer, steps, code, address);
    hold(reply.answer == answer && reply.steps == steps && reply.code == code && reply.address == address, what);
    if (steps != 0)
        run_alone(&alone, steps);
    hold(memcmp(call, &alone, sizeof alone) == 0, what);
}

/* One word in a turn of its own, with x1 and sp at an address; where it is done, the code is given. */
static void expect_word(
    struct milestarling_ranges ranges, uint32_t word, uint64_t at, uint64_t answer, uint64_t code, const char *what)
{
    struct call call = begin(ranges);
    call.words[call.words_length++] = word;
    set(&call, 1, at);
    set(&call, MILESTARLING_SP, at);
    expect(&call, answer, answer == MILESTARLING_DONE, answer == MILESTARLING_DONE ? code : 0, at, what);
}

struct trial {
    const char *line;
    uint64_t code, at, answer;
};

static void expect_trials(struct milestarling_ranges ranges, const struct trial *trials, size_t count)
{
    for (size_t i = 0; i < count; i++)
        expect_word(ranges, word_of(trials[i].line), trials[i].at, trials[i].answer, trials[i].code, trials[i].line);
}

/* ---- 1: the ranges */

struct placement {
    struct milestarling_ranges ranges;
    uint64_t answer;
};

/* In the turns of both, with words and without, and before 10 and 2. */
static void expect_placements(uint64_t origin, size_t length, const struct placement *placements, size_t count)
{
    for (size_t i = 0; i < count; i++)
        for (int swapped = 0; swapped < 2; swapped++) {
            char what[64];
            const uint64_t answer = placements[i].answer;
            struct call call =
                begin(swapped ? milestarling_ranges_swapped(placements[i].ranges) : placements[i].ranges);
            snprintf(what, sizeof what, "placement %zu at %" PRIx64 "%s", i, origin, swapped ? ", swapped" : "");
            call.origin = origin;
            call.length = call.taint_length = length;
            expect(&call, answer, 0, 0, 0, what);
            call.words_length = 1;
            expect(&call, answer == MILESTARLING_DONE ? MILESTARLING_NOT_IN_SET : answer, 0, 0, 0, what);
            call.trace_length = 1;
            expect(&call, answer == MILESTARLING_DONE ? MILESTARLING_NO_ROOM : answer, 0, 0, 0, what);
            call.trace_length = 2;
            call.statuses_length = 0;
            expect(&call, answer == MILESTARLING_DONE ? MILESTARLING_NO_ROOM : answer, 0, 0, 0, what);
            call.statuses_length = 1;
            call.words[0] = word_of("prfm pldl1keep, [x1]");
            expect(&call, answer, answer == MILESTARLING_DONE, 0, 0, what);
        }
}

static void ranges_may_touch_and_not_overlap(void)
{
    static const struct placement placements[] = {
        {{{0x1020, 32}, {0x1040, 32}, {0x1060, 32}}, 0}, {{{0x1020, 16}, {0x1040, 16}, {0x1060, 16}}, 0},
        {{{0x1060, 32}, {0x1000, 32}, {0x1040, 32}}, 0}, {{{0x1000, 1}, {0x1001, 1}, {0x1002, 158}}, 0},
        /* by one byte: shared and own, shared and other, own and other, either first */
        {{{0x1020, 33}, {0x1040, 32}, {0x1060, 32}}, 1}, {{{0x1040, 32}, {0x1020, 33}, {0x1060, 32}}, 1},
        {{{0x1020, 33}, {0x1060, 32}, {0x1040, 32}}, 1}, {{{0x1040, 32}, {0x1060, 32}, {0x1020, 33}}, 1},
        {{{0x1060, 32}, {0x1020, 33}, {0x1040, 32}}, 1}, {{{0x1060, 32}, {0x1040, 32}, {0x1020, 33}}, 1},
        {{{0x1020, 32}, {0x103f, 33}, {0x1060, 32}}, 1}, {{{0x1020, 32}, {0x1060, 32}, {0x103f, 33}}, 1},
        {{{0x1060, 32}, {0x1020, 32}, {0x103f, 33}}, 1},
        /* one inside another, one with another's first or last byte alone, and the same twice */
        {{{0x1020, 32}, {0x1028, 8}, {0x1060, 32}}, 1}, {{{0x1028, 8}, {0x1060, 32}, {0x1020, 32}}, 1},
        {{{0x1060, 32}, {0x1020, 1}, {0x1020, 32}}, 1}, {{{0x1060, 32}, {0x1020, 32}, {0x103f, 1}}, 1},
        {{{0x1060, 1}, {0x1060, 1}, {0x1040, 1}}, 1}, {{{0x1060, 1}, {0x1040, 1}, {0x1060, 1}}, 1},
        {{{0x1040, 1}, {0x1060, 1}, {0x1060, 1}}, 1}, {{{0x1000, 160}, {0x1000, 160}, {0x1000, 160}}, 1},
    };
    expect_placements(ORIGIN, LENGTH, placements, COUNT(placements));
}

static void empty_ranges_stand_in_memory(void)
{
    static const struct placement placements[] = {
        {{{0x1000, 0}, {0x1000, 0}, {0x1000, 0}}, 0}, {{{0x10a0, 0}, {0x10a0, 0}, {0x10a0, 0}}, 0},
        {{{0x1020, 32}, {0x1040, 32}, {0x10a0, 0}}, 0}, {{{0x10a0, 0}, {0x1040, 32}, {0x1060, 32}}, 0},
        /* inside another, at its first byte and right behind its last */
        {{{0x1028, 0}, {0x1020, 32}, {0x1060, 32}}, 0}, {{{0x1020, 32}, {0x1028, 0}, {0x1060, 32}}, 0},
        {{{0x1020, 32}, {0x1040, 32}, {0x1028, 0}}, 0}, {{{0x1020, 32}, {0x1040, 32}, {0x1048, 0}}, 0},
        {{{0x1020, 0}, {0x1020, 32}, {0x1040, 0}}, 0}, {{{0x1000, 160}, {0x1000, 0}, {0x10a0, 0}}, 0},
        /* not in memory */
        {{{0x10a1, 0}, {0x1040, 32}, {0x1060, 32}}, 1}, {{{0x1020, 32}, {0x10a1, 0}, {0x1060, 32}}, 1},
        {{{0x1020, 32}, {0x1040, 32}, {0x10a1, 0}}, 1}, {{{0xfff, 0}, {0x1040, 32}, {0x1060, 32}}, 1},
        {{{0x1020, 32}, {0xfff, 0}, {0x1060, 32}}, 1}, {{{0x1020, 32}, {0x1040, 32}, {0xfff, 0}}, 1},
        {{{0, 0}, {0x1040, 32}, {0x1060, 32}}, 1}, {{{0x1020, 32}, {UINT64_MAX, 0}, {0x1060, 32}}, 1},
        {{{0, 0}, {0, 0}, {0, 0}}, 1},
    };
    static const struct placement nowhere[] = {
        {{{0x1000, 0}, {0x1000, 0}, {0x1000, 0}}, 0}, {{{0x1001, 0}, {0x1000, 0}, {0x1000, 0}}, 1},
        {{{0x1000, 0}, {0xfff, 0}, {0x1000, 0}}, 1}, {{{0x1000, 0}, {0x1000, 0}, {0x1000, 1}}, 1},
    };
    expect_placements(ORIGIN, LENGTH, placements, COUNT(placements));
    expect_placements(ORIGIN, 0, nowhere, COUNT(nowhere));
}

static void ranges_lie_in_memory(void)
{
    static const struct placement placements[] = {
        {{{0x1000, 1}, {0x109f, 1}, {0x1001, 1}}, 0}, {{{0x109f, 1}, {0x1001, 1}, {0x1000, 1}}, 0},
        {{{0x1000, 160}, {0x1000, 0}, {0x1000, 0}}, 0}, {{{0x1000, 0}, {0x1000, 160}, {0x1000, 0}}, 0},
        {{{0x1000, 161}, {0x1000, 0}, {0x1000, 0}}, 1}, {{{0x1000, 0}, {0x1000, 161}, {0x1000, 0}}, 1},
        {{{0xfff, 1}, {0x1040, 32}, {0x1060, 32}}, 1}, {{{0x1020, 32}, {0xfff, 2}, {0x1060, 32}}, 1},
        {{{0x10a0, 1}, {0x1040, 32}, {0x1060, 32}}, 1}, {{{0x1020, 32}, {0x109f, 2}, {0x1060, 32}}, 1},
        {{{0x1020, 32}, {0x1040, 32}, {0x109f, 2}}, 1}, {{{0x1020, 32}, {0x1040, 32}, {0x1060, 65}}, 1},
        {{{0x1020, 32}, {0x1040, 32}, {0x1060, 64}}, 0},
        /* whole numbers: an end at 2^64 or above it isn't one below */
        {{{0x1020, 32}, {0x1040, UINT64_MAX}, {0x1000, 0}}, 1}, {{{0x1000, 0}, {0x1060, UINT64_MAX - 15}, {0x1000, 0}}, 1},
        {{{0x1000, UINT64_MAX}, {0x1000, 0}, {0x1000, 0}}, 1}, {{{0, UINT64_MAX}, {0x1000, 0}, {0x1000, 0}}, 1},
        {{{0x1000, UINT64_MAX - 0xfff}, {0x1000, 0}, {0x1000, 0}}, 1}, {{{UINT64_MAX, 1}, {0x1000, 0}, {0x1000, 0}}, 1},
        {{{UINT64_MAX, 0x1002}, {0x1000, 0}, {0x1000, 0}}, 1}, {{{UINT64_MAX, UINT64_MAX}, {0x1000, 0}, {0x1000, 0}}, 1},
    };
    expect_placements(ORIGIN, LENGTH, placements, COUNT(placements));
}

static void the_address_space_has_two_ends(void)
{
    static const struct placement low[] = {
        {{{0, 0}, {0, 0}, {0, 0}}, 0}, {{{0, 1}, {1, 1}, {159, 1}}, 0}, {{{0, 160}, {0, 0}, {160, 0}}, 0},
        {{{0, 161}, {0, 0}, {0, 0}}, 1}, {{{160, 1}, {0, 1}, {1, 1}}, 1}, {{{0, 1}, {161, 0}, {1, 1}}, 1},
        {{{0, 1}, {1, 1}, {UINT64_MAX, 1}}, 1}, {{{0, 1}, {1, 1}, {UINT64_MAX, 0}}, 1}, {{{0, 1}, {UINT64_MAX, 2}, {1, 1}}, 1},
        {{{0, 2}, {1, 1}, {2, 1}}, 1},
    };
    static const struct placement high[] = {
        {{{TOP, 160}, {TOP, 0}, {UINT64_MAX, 0}}, 0}, {{{TOP, 1}, {UINT64_MAX, 1}, {TOP + 1, 158}}, 0},
        {{{UINT64_MAX - 31, 16}, {UINT64_MAX - 15, 16}, {TOP, 0}}, 0}, {{{UINT64_MAX - 31, 16}, {UINT64_MAX - 16, 17}, {TOP, 0}}, 1},
        {{{UINT64_MAX - 31, 17}, {UINT64_MAX - 15, 16}, {TOP, 0}}, 1}, {{{TOP, 161}, {TOP, 0}, {TOP, 0}}, 1},
        {{{UINT64_MAX, 2}, {TOP, 1}, {TOP + 1, 1}}, 1}, {{{TOP, 1}, {UINT64_MAX, 2}, {TOP + 1, 1}}, 1},
        {{{TOP, 1}, {TOP + 1, 1}, {UINT64_MAX, UINT64_MAX}}, 1}, {{{TOP - 1, 1}, {TOP, 1}, {TOP + 1, 1}}, 1},
        {{{TOP - 1, 0}, {TOP, 1}, {TOP + 1, 1}}, 1}, {{{0, 0}, {TOP, 1}, {TOP + 1, 1}}, 1}, {{{0, 1}, {TOP, 1}, {TOP + 1, 1}}, 1},
        {{{UINT64_MAX, 1}, {UINT64_MAX - 1, 2}, {TOP, 1}}, 1},
    };
    /* memory that ends above the address space, and none at its last address */
    static const struct placement behind[] = {
        {{{TOP + 1, 0}, {TOP + 1, 0}, {TOP + 1, 0}}, 1}, {{{TOP + 1, 1}, {TOP + 2, 1}, {TOP + 3, 1}}, 1},
    };
    static const struct placement last[] = {
        {{{UINT64_MAX, 0}, {UINT64_MAX, 0}, {UINT64_MAX, 0}}, 0}, {{{UINT64_MAX, 0}, {0, 0}, {UINT64_MAX, 0}}, 1},
    };
    expect_placements(0, LENGTH, low, COUNT(low));
    expect_placements(TOP, LENGTH, high, COUNT(high));
    expect_placements(TOP + 1, LENGTH, behind, COUNT(behind));
    expect_placements(UINT64_MAX, 0, last, COUNT(last));
}

/* As in a run, and before 10. */
static void windows_are_refused(void)
{
    struct call call = begin(in_order);
    call.taint_length = LENGTH + 1;
    expect(&call, MILESTARLING_BAD_WINDOW, 0, 0, 0, "a taint byte too many");
    call.taint_length = LENGTH - 1;
    call.words_length = 1;
    call.statuses_length = 0;
    expect(&call, MILESTARLING_BAD_WINDOW, 0, 0, 0, "one too few, and no room");
    call.taint_length = LENGTH;
    expect(&call, MILESTARLING_NO_ROOM, 0, 0, 0, "no room");
    call.machine.session.pc = 2;
    expect(&call, MILESTARLING_BAD_WINDOW, 0, 0, 0, "a program counter between two words");
}

/* ---- 7, 8 and 12: one access */

static void accesses_stay_in_ranges(void)
{
    static const struct trial trials[] = {
        {"ldrb w0, [x1]", 1, 0xfff, 7}, {"ldrb w0, [x1]", 1, 0x1000, 12}, {"ldrb w0, [x1]", 1, 0x101f, 12},
        {"ldrb w0, [x1]", 1, 0x1020, 0}, {"ldrb w0, [x1]", 1, 0x103f, 0}, {"ldrb w0, [x1]", 1, 0x1040, 0},
        {"ldrb w0, [x1]", 1, 0x105f, 0}, {"ldrb w0, [x1]", 1, 0x1060, 12}, {"ldrb w0, [x1]", 1, 0x107f, 12},
        {"ldrb w0, [x1]", 1, 0x1080, 12}, {"ldrb w0, [x1]", 1, 0x109f, 12}, {"ldrb w0, [x1]", 1, 0x10a0, 7},
        {"strb w0, [x1]", 65, 0xfff, 7}, {"strb w0, [x1]", 65, 0x1000, 12}, {"strb w0, [x1]", 65, 0x101f, 12},
        {"strb w0, [x1]", 65, 0x1020, 8}, {"strb w0, [x1]", 65, 0x103f, 8}, {"strb w0, [x1]", 65, 0x1040, 0},
        {"strb w0, [x1]", 65, 0x105f, 0}, {"strb w0, [x1]", 65, 0x1060, 12}, {"strb w0, [x1]", 65, 0x107f, 12},
        {"strb w0, [x1]", 65, 0x1080, 12}, {"strb w0, [x1]", 65, 0x109f, 12}, {"strb w0, [x1]", 65, 0x10a0, 7},
        {"ldr x0, [x1]", 8, 0x1018, 12}, {"ldr x0, [x1]", 8, 0x1019, 12}, {"ldr x0, [x1]", 8, 0x101f, 12},
        {"ldr x0, [x1]", 8, 0x1020, 0}, {"ldr x0, [x1]", 8, 0x1038, 0}, {"ldr x0, [x1]", 8, 0x1039, 12},
        {"ldr x0, [x1]", 8, 0x103f, 12}, {"ldr x0, [x1]", 8, 0x1040, 0}, {"ldr x0, [x1]", 8, 0x1058, 0},
        {"ldr x0, [x1]", 8, 0x1059, 12}, {"ldr x0, [x1]", 8, 0x1060, 12}, {"ldr x0, [x1]", 8, 0x1079, 12},
        {"ldr x0, [x1]", 8, 0x1098, 12}, {"ldr x0, [x1]", 8, 0x1099, 7}, {"ldr x0, [x1]", 8, UINT64_MAX - 3, 7},
        {"str x0, [x1]", 72, 0x1018, 12}, {"str x0, [x1]", 72, 0x1019, 8}, {"str x0, [x1]", 72, 0x101f, 8},
        {"str x0, [x1]", 72, 0x1020, 8}, {"str x0, [x1]", 72, 0x1039, 8}, {"str x0, [x1]", 72, 0x103f, 8},
        {"str x0, [x1]", 72, 0x1040, 0}, {"str x0, [x1]", 72, 0x1058, 0}, {"str x0, [x1]", 72, 0x1059, 12},
        {"str x0, [x1]", 72, 0x105f, 12}, {"str x0, [x1]", 72, 0x1060, 12}, {"str x0, [x1]", 72, 0x1098, 12},
        {"str x0, [x1]", 72, 0x1099, 7}, {"str x0, [x1]", 72, 0xff9, 7}, {"str x0, [x1]", 72, UINT64_MAX, 7},
        /* a pair is one access: the second register alone touches the shared range, or leaves the own one */
        {"stp x0, x2, [x1]", 80, 0x1010, 12}, {"stp x0, x2, [x1]", 80, 0x1018, 8}, {"stp x0, x2, [x1]", 80, 0x1058, 12},
        {"ldp x0, x2, [x1]", 16, 0x1038, 12}, {"ldp x0, x2, [x1]", 16, 0x1030, 0}, {"ldp x0, x2, [x1]", 16, 0x1050, 0},
        /* vector registers, of sixteen bytes and of thirty-two */
        {"ldr q0, [x1]", 16, 0x101f, 12}, {"ldr q0, [x1]", 16, 0x1020, 0}, {"ldr q0, [x1]", 16, 0x1030, 0},
        {"ldr q0, [x1]", 16, 0x1031, 12}, {"ldr q0, [x1]", 16, 0x1050, 0}, {"ldr q0, [x1]", 16, 0x1051, 12},
        {"str q0, [x1]", 80, 0x1010, 12}, {"str q0, [x1]", 80, 0x1011, 8}, {"str q0, [x1]", 80, 0x103f, 8},
        {"str q0, [x1]", 80, 0x1040, 0}, {"str q0, [x1]", 80, 0x1050, 0}, {"str q0, [x1]", 80, 0x1051, 12},
        {"str q0, [x1]", 80, 0x1090, 12}, {"str q0, [x1]", 80, 0x1091, 7},
        {"ldp q0, q1, [x1]", 32, 0x101f, 12}, {"ldp q0, q1, [x1]", 32, 0x1020, 0}, {"ldp q0, q1, [x1]", 32, 0x1021, 12},
        {"ldp q0, q1, [x1]", 32, 0x103f, 12}, {"ldp q0, q1, [x1]", 32, 0x1040, 0}, {"ldp q0, q1, [x1]", 32, 0x1041, 12},
        {"stp q0, q1, [x1]", 96, 0x1000, 12}, {"stp q0, q1, [x1]", 96, 0x1001, 8}, {"stp q0, q1, [x1]", 96, 0x1020, 8},
        {"stp q0, q1, [x1]", 96, 0x103f, 8}, {"stp q0, q1, [x1]", 96, 0x1040, 0}, {"stp q0, q1, [x1]", 96, 0x1041, 12},
        {"stp q0, q1, [x1]", 96, 0x1080, 12}, {"stp q0, q1, [x1]", 96, 0x1081, 7},
    };
    /* the shared range at memory's end and at its start, where a store both touches it and leaves memory */
    static const struct milestarling_ranges at_the_end = {{0x1080, 32}, {0x1000, 32}, {0x1020, 32}};
    static const struct milestarling_ranges at_the_start = {{0x1000, 32}, {0x1060, 32}, {0x1020, 32}};
    static const struct trial of_the_end[] = {
        {"str x0, [x1]", 72, 0x1079, 8}, {"str x0, [x1]", 72, 0x1098, 8}, {"str x0, [x1]", 72, 0x1099, 7},
        {"ldr x0, [x1]", 8, 0x1098, 0}, {"ldr x0, [x1]", 8, 0x1099, 7}, {"str x0, [x1]", 72, 0x1000, 0},
        {"ldr x0, [x1]", 8, 0xfff, 7},
    };
    /* and it touches the other's, where a store touches both: 8; here it loads from neither whole: 12 */
    static const struct trial of_the_start[] = {
        {"str x0, [x1]", 72, 0xff9, 7}, {"str x0, [x1]", 72, 0x1000, 8}, {"str x0, [x1]", 72, 0x101f, 8},
        {"str x0, [x1]", 72, 0x1020, 12}, {"ldr x0, [x1]", 8, 0x1000, 0}, {"ldr x0, [x1]", 8, 0x101f, 12},
        {"ldr x0, [x1]", 8, 0x1059, 12}, {"str x0, [x1]", 72, 0x1059, 12}, {"str x0, [x1]", 72, 0x1060, 0},
    };
    expect_trials(in_order, trials, COUNT(trials));
    expect_trials(at_the_end, of_the_end, COUNT(of_the_end));
    expect_trials(at_the_start, of_the_start, COUNT(of_the_start));
}

/* A range of no bytes holds no access, and a store beside it touches nothing of it. */
static void empty_ranges_hold_nothing(void)
{
    static const struct milestarling_ranges no_shared = {{0x1048, 0}, {0x1040, 32}, {0x1060, 32}};
    static const struct milestarling_ranges no_own = {{0x1040, 32}, {0x1048, 0}, {0x1060, 32}};
    static const struct milestarling_ranges none = {{0x1040, 0}, {0x1040, 0}, {0x1040, 0}};
    static const struct trial of_no_shared[] = {
        {"str x0, [x1]", 72, 0x1044, 0}, {"str x0, [x1]", 72, 0x1048, 0}, {"ldr x0, [x1]", 8, 0x1044, 0},
        {"ldrb w0, [x1]", 1, 0x103f, 12}, {"strb w0, [x1]", 65, 0x103f, 12},
    };
    static const struct trial of_no_own[] = {
        {"ldr x0, [x1]", 8, 0x1044, 0}, {"strb w0, [x1]", 65, 0x1048, 8}, {"strb w0, [x1]", 65, 0x1060, 12},
    };
    static const struct trial of_none[] = {
        {"ldrb w0, [x1]", 1, 0x1040, 12}, {"strb w0, [x1]", 65, 0x1040, 12}, {"ldrb w0, [x1]", 1, 0x10a0, 7},
    };
    expect_trials(no_shared, of_no_shared, COUNT(of_no_shared));
    expect_trials(no_own, of_no_own, COUNT(of_no_own));
    expect_trials(none, of_none, COUNT(of_none));
}

/* The last and the first byte that there are. */
static void accesses_end_with_the_address_space(void)
{
    static const struct milestarling_ranges high = {{TOP, 32}, {UINT64_MAX - 31, 32}, {TOP + 32, 32}};
    static const struct milestarling_ranges low = {{128, 32}, {0, 32}, {32, 32}};
    static const struct {
        uint64_t origin;
        const struct milestarling_ranges *ranges;
        struct trial trial;
    } cases[] = {
        {TOP, &high, {"stp q0, q1, [x1]", 96, UINT64_MAX - 31, 0}}, {TOP, &high, {"stp q0, q1, [x1]", 96, UINT64_MAX - 30, 7}},
        {TOP, &high, {"stp q0, q1, [x1]", 96, UINT64_MAX - 32, 12}}, {TOP, &high, {"strb w0, [x1]", 65, UINT64_MAX, 0}},
        {TOP, &high, {"ldrb w0, [x1]", 1, 0, 7}}, {TOP, &high, {"ldp q0, q1, [x1]", 32, TOP, 0}},
        {TOP, &high, {"ldp q0, q1, [x1]", 32, TOP - 1, 7}}, {TOP, &high, {"strb w0, [x1]", 65, TOP, 8}},
        {0, &low, {"stp q0, q1, [x1]", 96, 0, 0}}, {0, &low, {"stp q0, q1, [x1]", 96, 1, 12}},
        {0, &low, {"stp q0, q1, [x1]", 96, UINT64_MAX, 7}}, {0, &low, {"ldp q0, q1, [x1]", 32, 128, 0}},
        {0, &low, {"ldp q0, q1, [x1]", 32, 127, 12}}, {0, &low, {"stp q0, q1, [x1]", 96, 97, 8}},
        {0, &low, {"ldp q0, q1, [x1]", 32, 129, 7}}, {0, &low, {"strb w0, [x1]", 65, 159, 8}},
    };
    for (size_t i = 0; i < COUNT(cases); i++) {
        const struct trial trial = cases[i].trial;
        struct call call = begin(*cases[i].ranges);
        call.origin = cases[i].origin;
        add(&call, trial.line);
        set(&call, 1, trial.at);
        expect(&call, trial.answer, trial.answer == 0, trial.answer == 0 ? trial.code : 0, trial.at, trial.line);
    }
}

/* ---- every address, byte by byte */

static int in(struct milestarling_range range, uint64_t address)
{
    return address >= range.address && address - range.address < range.length;
}

/* 7, 8 and 12 by the bytes of an access alone. None is at an address where it could leave the address space. */
static uint64_t by_bytes(struct milestarling_ranges ranges, int store, uint64_t at, unsigned bytes)
{
    unsigned outside = 0, shared = 0, own = 0;
    for (uint64_t i = at; i < at + bytes; i++) {
        outside += i < ORIGIN || i >= END;
        shared += in(ranges.shared, i);
        own += in(ranges.own, i);
    }
    if (outside != 0)
        return MILESTARLING_OUT_OF_WINDOW;
    if (store && shared != 0)
        return MILESTARLING_READ_ONLY;
    return own == bytes || (!store && shared == bytes) ? MILESTARLING_DONE : MILESTARLING_NOT_ALLOWED;
}

static void every_address_is_tried(void)
{
    static const struct {
        const char *load, *store;
        unsigned bytes;
    } forms[] = {
        {"ldrsb x0, [x1]", "strb w0, [x1]", 1}, {"ldr h0, [x1]", "strh w0, [x1]", 2}, {"ldr w0, [x1]", "str s0, [x1]", 4},
        {"ldp w0, w2, [x1]", "str x0, [x1]", 8}, {"ldr q0, [x1]", "stp x0, x2, [x1]", 16},
        {"ldp q0, q1, [x1]", "stnp q0, q1, [x1]", 32},
    };
    static const struct milestarling_ranges ranges[] = {
        {{0x1020, 32}, {0x1040, 32}, {0x1060, 32}}, {{0x1060, 32}, {0x1020, 32}, {0x1040, 32}},
        {{0x1000, 40}, {0x1078, 40}, {0x1028, 1}}, {{0x1078, 40}, {0x1000, 40}, {0x1077, 1}},
        {{0x1050, 7}, {0x1057, 33}, {0x1000, 80}}, {{0x1040, 3}, {0x1010, 48}, {0x1043, 5}},
        {{0x1040, 0}, {0x1000, 160}, {0x10a0, 0}}, {{0x1000, 160}, {0x1040, 0}, {0x1000, 0}},
        {{0x1000, 0}, {0x1000, 0}, {0x1000, 160}}, {{0x1047, 1}, {0x1048, 17}, {0x1046, 1}},
    };
    for (size_t form = 0; form < COUNT(forms); form++) {
        const uint32_t load = word_of(forms[form].load), store = word_of(forms[form].store);
        for (size_t i = 0; i < COUNT(ranges); i++)
            for (uint64_t at = ORIGIN - 34; at < END + 2; at++) {
                expect_word(ranges[i], load, at, by_bytes(ranges[i], 0, at, forms[form].bytes), forms[form].bytes, forms[form].load);
                expect_word(ranges[i], store, at, by_bytes(ranges[i], 1, at, forms[form].bytes),
                    MILESTARLING_STORE_CODE + forms[form].bytes, forms[form].store);
            }
    }
}

/* ---- the order of refusals, literals, prefetches and exclusives */

static void refusals_have_an_order(void)
{
    /* each word at an address in the shared range and in the other's: 2 to 6 come before 8 and 12 */
    static const uint64_t places[2] = {0x1021, 0x1061};
    for (size_t i = 0; i < COUNT(places); i++) {
        struct call call = begin(in_order);
        call.words_length = 1;
        set(&call, 1, places[i]);
        expect(&call, MILESTARLING_NOT_IN_SET, 0, 0, 0, "no load or store");
        call.words[0] = 0xb9c00020 | 1 << 30; /* of ldrsw's row, with the size of a doubleword */
        expect(&call, MILESTARLING_UNDEFINED, 0, 0, 0, "an undefined one");
        call.words[0] = word_of("stp x1, x0, [x1, #16]!");
        expect(&call, MILESTARLING_UNPREDICTABLE, 0, 0, 0, "an unpredictable one");
        call.words[0] = word_of("stur x0, [x1, #15]");
        call.machine.session.value_taint[1] = milestarling_taint_bytes(7, 1);
        expect(&call, MILESTARLING_TAINTED_ADDRESS, 0, 0, 0, "a tainted base");
        set(&call, 1, places[i]);
        call.words[0] = word_of("stlxr w3, w0, [x1]");
        expect(&call, MILESTARLING_MISALIGNED, 0, 0, places[i], "an exclusive store");
        call.words[0] = word_of("stlur x0, [x1, #14]");
        expect(&call, MILESTARLING_MISALIGNED, 0, 0, places[i] + 14, "a store-release");
        set(&call, MILESTARLING_SP, places[i]);
        call.words[0] = word_of("str x0, [sp, #8]");
        expect(&call, MILESTARLING_MISALIGNED, 0, 0, places[i], "the stack pointer, with its own value");
    }
    /* with a writeback: the base is kept, and the address is that of the access */
    struct call call = begin(in_order);
    set(&call, 1, 0x1050);
    add(&call, "str x0, [x1, #16]!");
    expect(&call, MILESTARLING_NOT_ALLOWED, 0, 0, 0x1060, "a pre-indexed store");
    hold(milestarling_value(&call.machine.session, 1) == 0x1050, "whose base is kept");
    call.words[0] = word_of("ldr q0, [x1], #16");
    expect(&call, MILESTARLING_DONE, 1, 16, 0x1050, "a post-indexed load, and its writeback");
    expect(&call, MILESTARLING_NOT_ALLOWED, 0, 0, 0x1060, "the next one");
}

static void literals_are_tested(void)
{
    static const struct {
        const char *line;
        uint64_t pc, answer, code, address;
    } cases[] = {
        {"ldr x0, #0", 0x1020, 0, 8, 0x1020}, {"ldr x0, #0", 0x1038, 0, 8, 0x1038}, {"ldr x0, #0", 0x103c, 12, 0, 0x103c},
        {"ldr x0, #0", 0x1040, 0, 8, 0x1040}, {"ldr x0, #8", 0x1050, 0, 8, 0x1058}, {"ldr x0, #12", 0x1050, 12, 0, 0x105c},
        {"ldr x0, #-4", 0x1020, 12, 0, 0x101c}, {"ldr w0, #-4", 0x1064, 12, 0, 0x1060}, {"ldr w0, #-8", 0x1064, 0, 4, 0x105c},
        {"ldr q0, #16", 0x1020, 0, 16, 0x1030}, {"ldr q0, #20", 0x1020, 12, 0, 0x1034}, {"ldrsw x0, #0", 0x10a0, 7, 0, 0x10a0},
        {"ldr s0, #0", 0x109c, 12, 0, 0x109c}, {"prfm pldl1keep, #0", 0x1060, 0, 0, 0}, {"prfm pldl1keep, #0", 0x2000, 0, 0, 0},
    };
    for (size_t i = 0; i < COUNT(cases); i++) {
        struct call call = begin(in_order);
        add(&call, cases[i].line);
        call.machine.session.pc = cases[i].pc;
        expect(&call, cases[i].answer, cases[i].answer == 0, cases[i].code, cases[i].address, cases[i].line);
    }
}

static void prefetches_pass(void)
{
    static const uint64_t places[] = {0, 0xfff, 0x1000, 0x103f, 0x1060, 0x1080, 0x10a0, UINT64_MAX};
    for (size_t i = 0; i < COUNT(places); i++) {
        struct call call = begin(in_order);
        add(&call, "prfm pstl1keep, [x1]");
        add(&call, "prfum pldl1keep, [x1, #-1]");
        add(&call, "prfm pldl1keep, [x1, x2]");
        set(&call, 1, places[i]);
        expect(&call, MILESTARLING_DONE, 3, 0, 0, "prefetches");
    }
}

/* A store-exclusive is tested as a store, whether it would fail or not, and a refused one keeps the monitor. */
static void exclusives_are_tested(void)
{
    static const struct trial trials[] = {
        {"ldxr w0, [x1]", 4, 0x1020, 0}, {"ldaxr x0, [x1]", 8, 0x1038, 0}, {"ldxr x0, [x1]", 8, 0x1058, 0},
        {"ldxr x0, [x1]", 8, 0x1060, 12}, {"ldaxrb w0, [x1]", 1, 0x101f, 12}, {"stxr w3, w0, [x1]", 68, 0x1020, 8},
        {"stlxr w3, x0, [x1]", 72, 0x1038, 8}, {"stxr w3, w0, [x1]", 68, 0x1060, 12}, {"stxrb w3, w0, [x1]", 65, 0x101f, 12},
        {"stxr w3, w0, [x1]", 68, 0x1040, 0}, {"stlr w0, [x1]", 68, 0x105c, 0}, {"stlr w0, [x1]", 68, 0x103c, 8},
        {"ldar w0, [x1]", 4, 0x103c, 0}, {"ldar w0, [x1]", 4, 0x1060, 12}, {"stlr w0, [x1]", 68, 0x10a0, 7},
    };
    static const struct {
        const char *line;
        uint64_t at, answer, status, code;
    } armed[] = {
        {"stxr w3, w0, [x1]", 0x1020, 8, 0xee, 0}, {"stxr w3, w0, [x1]", 0x1060, 12, 0xee, 0},
        {"stxr w3, w0, [x1]", 0x1050, 0, 0, 68}, {"stxr w3, x0, [x1]", 0x1050, 0, 1, 72},
    };
    expect_trials(in_order, trials, COUNT(trials));
    for (size_t i = 0; i < COUNT(armed); i++) {
        struct call call = begin(in_order);
        add(&call, armed[i].line);
        set(&call, 1, armed[i].at);
        call.machine.session.monitor_address = armed[i].at;
        call.machine.session.monitor_size = 4;
        expect(&call, armed[i].answer, armed[i].answer == 0, armed[i].code, armed[i].at, armed[i].line);
        hold(call.machine.statuses[0] == armed[i].status, "its status");
        hold(call.machine.session.monitor_size == (armed[i].answer == 0 ? 0 : 4), "its monitor");
    }
}

/* ---- sequences of turns */

/* Two plugins on one memory: a has 1040 to 105f and b 1060 to 107f. */
struct plugin {
    struct milestarling_session session;
    struct milestarling_vectors vectors;
    struct milestarling_ranges ranges;
    struct milestarling_access trace[MOST];
    uint8_t statuses[MOST];
};

static uint8_t bytes[LENGTH], taint[LENGTH];

static struct milestarling_run_reply turn(struct plugin *plugin, const char *const *lines, size_t count)
{
    const struct milestarling_shared_memory memory = {bytes, LENGTH, taint, LENGTH, ORIGIN};
    uint32_t words[MOST];
    for (size_t i = 0; i < count; i++)
        words[i] = word_of(lines[i]);
    tried++;
    return milestarling_session_turn(
        memory, plugin->ranges, &plugin->session, &plugin->vectors, words, count, plugin->trace, MOST, plugin->statuses, MOST);
}

static void begin_plugins(struct plugin *a, struct plugin *b)
{
    memset(a, 0, sizeof *a);
    memset(bytes, 0, sizeof bytes);
    memset(taint, 0, sizeof taint);
    *b = *a;
    a->ranges = in_order;
    b->ranges = milestarling_ranges_swapped(in_order);
    milestarling_set_register(&a->session, 1, 0x1040, MILESTARLING_TAINT_NONE);
    milestarling_set_register(&b->session, 1, 0x1060, MILESTARLING_TAINT_NONE);
}

static void a_refusal_ends_one_turn(void)
{
    const char *const first[] = {"ldxr w2, [x1]", "ldrb w0, [x1, #32]", "str x1, [x1, #8]"};
    const char *const theirs[] = {"stp q0, q1, [x1]", "ldurb w0, [x1, #-1]"};
    const char *const second[] = {"stxr w3, w1, [x1]", "ldr x4, [x1]"};
    struct plugin a, b;
    struct milestarling_run_reply reply;
    begin_plugins(&a, &b);
    memset(bytes + 0x20, 7, 32);
    memset(b.vectors.value, 0xff, sizeof b.vectors.value);

    reply = turn(&a, first, 3);
    hold(reply.answer == MILESTARLING_NOT_ALLOWED && reply.steps == 1 && reply.address == 0x1060, "a's first turn");
    hold(a.session.pc == 4 && a.session.monitor_address == 0x1040 && a.session.monitor_size == 4, "goes as far as it gets");
    reply = turn(&b, theirs, 2);
    hold(reply.answer == MILESTARLING_NOT_ALLOWED && reply.steps == 1 && reply.address == 0x105f, "b's");
    hold(b.session.pc == 4 && bytes[0x5f] == 0 && bytes[0x60] == 0xff, "stores to its own");
    hold(bytes[0x7f] == 0xff && bytes[0x80] == 0, "and no further");
    reply = turn(&b, theirs, 2);
    hold(reply.steps == 1 && b.session.pc == 8, "b's next goes on from there");
    reply = turn(&a, second, 2);
    hold(reply.answer == MILESTARLING_DONE && reply.steps == 2 && a.statuses[0] == 0, "a's lock never crosses");
    hold(a.session.pc == 12 && a.session.monitor_size == 0 && milestarling_value(&a.session, 4) == 0x1040, "and is taken");
    reply = turn(&a, second, 1);
    hold(reply.answer == MILESTARLING_DONE && a.statuses[0] == 1, "once");
}

/* Stores of one never open the monitor of the other, so that to observe them changes nothing. */
static void monitors_have_nothing_to_observe(void)
{
    const char *const arm[] = {"ldxr x2, [x1]"}, *const arm_shared[] = {"ldxr x2, [x4]"};
    const char *const fill[] = {"stp q0, q1, [x1]", "stxr w3, w0, [x1]", "ldxr w0, [x1]", "stxr w3, w0, [x1]"};
    struct plugin a, b;
    begin_plugins(&a, &b);
    milestarling_set_register(&a.session, 4, 0x1038, MILESTARLING_TAINT_NONE);
    milestarling_set_register(&a.session, 1, 0x1058, MILESTARLING_TAINT_NONE);
    for (int shared = 0; shared < 2; shared++) {
        struct milestarling_session before;
        struct milestarling_run_reply reply = turn(&a, shared ? arm_shared : arm, 1);
        hold(reply.answer == MILESTARLING_DONE && a.session.monitor_address == (shared ? 0x1038 : 0x1058), "an armed monitor");
        before = a.session;
        reply = turn(&b, fill, 4);
        hold(reply.answer == MILESTARLING_DONE && b.statuses[1] == 1 && b.statuses[3] == 0, "all that the other stores");
        milestarling_observe_run(&a.session, b.trace, b.statuses, reply.steps);
        hold(memcmp(&a.session, &before, sizeof before) == 0, "opens nothing");
    }
}

/* Another plugin in b's place, with other words, registers, taints and bytes: a's turns show and leave the same. */
static void another_plugin_makes_no_difference(void)
{
    const char *const words[4] = {"ldp q2, q3, [x4]", "ldaxr w2, [x1]", "stlxr w3, w5, [x1]", "ldrb w6, [x1, #32]"};
    const char *const one[] = {"stp q0, q1, [x1]"}, *const another[] = {"ldxr x2, [x1]", "strb w1, [x1, #31]", "stur x1, [x1, #-8]"};
    struct plugin left[4];
    uint8_t left_bytes[4][64], left_taint[4][64];
    struct milestarling_run_reply left_reply[4];
    for (int other = 0; other < 2; other++) {
        struct plugin a, b;
        begin_plugins(&a, &b);
        memset(bytes + 0x20, 9, 32);
        memset(taint + 0x28, 1, 4);
        milestarling_set_register(&a.session, 4, 0x1020, MILESTARLING_TAINT_NONE);
        milestarling_set_register(&a.session, 5, 77, MILESTARLING_TAINT_ALL);
        memset(bytes + 0x60, other ? 0xa5 : 0, 32);
        memset(taint + 0x60, other, 32);
        for (int i = 0; i < 4; i++) {
            struct milestarling_run_reply reply;
            if (other) {
                b.session.pc = i % 2 == 0 ? 2 : 4; /* the first is answer 1, to b alone */
                reply = turn(&b, another, 3);
                hold(reply.answer == (i % 2 == 0 ? MILESTARLING_BAD_WINDOW : MILESTARLING_NOT_ALLOWED), "the other's turn");
            } else {
                hold(turn(&b, one, 1).answer == MILESTARLING_DONE, "the other's turn");
            }
            reply = turn(&a, words, 4);
            hold(reply.answer == MILESTARLING_NOT_ALLOWED && reply.steps == 3 && reply.address == 0x1060, "ours");
            if (!other) {
                memcpy(&left[i], &a, sizeof a);
                left_reply[i] = reply;
                memcpy(left_bytes[i], bytes + 0x20, 64);
                memcpy(left_taint[i], taint + 0x20, 64);
                continue;
            }
            hold(memcmp(&left[i], &a, sizeof a) == 0 && memcmp(&left_reply[i], &reply, sizeof reply) == 0, "the same is left");
            hold(memcmp(left_bytes[i], bytes + 0x20, 64) == 0 && memcmp(left_taint[i], taint + 0x20, 64) == 0, "and the same bytes");
        }
    }
}

/* What has no length may be null; and the swap exchanges own and other alone. */
static void structs_are_handed_in(void)
{
    const struct milestarling_shared_memory none = {NULL, 0, NULL, 0, ORIGIN};
    const struct milestarling_ranges nowhere = {{ORIGIN, 0}, {ORIGIN, 0}, {ORIGIN, 0}};
    const struct milestarling_ranges swapped = milestarling_ranges_swapped(in_order);
    struct plugin a, b;
    struct milestarling_run_reply reply;
    begin_plugins(&a, &b);
    reply = milestarling_session_turn(none, nowhere, &a.session, &a.vectors, NULL, 0, NULL, 0, NULL, 0);
    hold(reply.answer == MILESTARLING_DONE && reply.steps == 0, "a turn of nothing");
    reply = milestarling_session_turn(none, in_order, &a.session, &a.vectors, NULL, 0, NULL, 0, NULL, 0);
    hold(reply.answer == MILESTARLING_BAD_WINDOW && reply.steps == 0, "ranges of no memory");
    hold(swapped.own.address == 0x1060 && swapped.other.address == 0x1040 && swapped.shared.address == 0x1020, "a swap");
    const struct milestarling_ranges back = milestarling_ranges_swapped(swapped);
    hold(memcmp(&back, &in_order, sizeof back) == 0, "and back");
}

int main(void)
{
    ranges_may_touch_and_not_overlap();
    empty_ranges_stand_in_memory();
    ranges_lie_in_memory();
    the_address_space_has_two_ends();
    windows_are_refused();
    accesses_stay_in_ranges();
    empty_ranges_hold_nothing();
    accesses_end_with_the_address_space();
    every_address_is_tried();
    refusals_have_an_order();
    literals_are_tested();
    prefetches_pass();
    exclusives_are_tested();
    a_refusal_ends_one_turn();
    monitors_have_nothing_to_observe();
    another_plugin_makes_no_difference();
    structs_are_handed_in();
    printf("turns of two plugins: %d were answered as by hand or by their bytes, and left what as many steps of a run leave\n", tried);
    return 0;
}
