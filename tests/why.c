/*
 * Why a byte is tainted, over the library, held against answers that were worked out by hand from document 02: paths through
 * memory, registers and vector registers, each refusal at its edge, and the order of refusals. At last a run, in which at each
 * step every place has a path exactly if that many words of it leave the place tainted.
 */
#include <inttypes.h>
#include <stdio.h>
#include <stdlib.h>
#include <string.h>

#include "milestarling.h"

enum { ORIGIN = 0x1000, LENGTH = 64, READONLY = 16, MOST = 16, ROOM = MILESTARLING_LINK_NUMBERS * (MOST + 1) };

/* A step as a run leaves it, and a place with the links of its path. */
struct step {
    const char *line;
    uint64_t code, address;
    uint8_t status;
};

struct path {
    uint64_t step;
    struct milestarling_place place;
    size_t count;
    struct milestarling_link links[8];
};

/* All that is handed in, with a taint byte more than memory needs. */
struct call {
    uint32_t words[MOST];
    uint64_t trace[MILESTARLING_TRACE_NUMBERS * MOST];
    uint8_t statuses[MOST], taint[LENGTH + 1];
    size_t words_length, trace_length, statuses_length, taint_length, links_length;
    uint64_t steps, origin, readonly, memory_length, step;
    struct milestarling_taint registers[MILESTARLING_REGISTERS];
    struct milestarling_vectors vectors;
    struct milestarling_place place;
};

#define X(number, byte) {MILESTARLING_PLACE_REGISTER, number, byte}
#define V(number, byte) {MILESTARLING_PLACE_VECTOR, number, byte}
#define AT(address) {MILESTARLING_PLACE_MEMORY, address, 0}
#define OF_X(number, byte, step) {MILESTARLING_PLACE_REGISTER, 16 * (number) + (byte), step}
#define OF_V(number, byte, step) {MILESTARLING_PLACE_VECTOR, 16 * (number) + (byte), step}
#define OF_AT(address, step) {MILESTARLING_PLACE_MEMORY, address, step}

static int asked, held;
static uint64_t links[ROOM];

static void hold(int holds, const char *what)
{
    if (!holds) {
        printf("doesn't hold: %s\n", what);
        exit(1);
    }
}

static uint32_t word_of(const char *line)
{
    const struct milestarling_word_reply read = milestarling_word((const uint8_t *)line, strlen(line));
    hold(read.answer == MILESTARLING_DONE, line);
    return (uint32_t)read.word;
}

/* Nothing is tainted, and it is asked about x0's lowest byte at the start. */
static struct call call_of(const struct step *steps, size_t count)
{
    struct call call;
    memset(&call, 0, sizeof call);
    for (size_t i = 0; i < count; i++) {
        call.words[i] = word_of(steps[i].line);
        call.trace[2 * i] = steps[i].code;
        call.trace[2 * i + 1] = steps[i].address;
        call.statuses[i] = steps[i].status;
    }
    call.words_length = call.statuses_length = call.steps = count;
    call.trace_length = 2 * count;
    call.taint_length = call.memory_length = LENGTH;
    call.origin = ORIGIN;
    call.readonly = READONLY;
    call.links_length = ROOM;
    return call;
}

static void taint_register(struct call *call, uint32_t number, uint32_t byte, uint64_t with)
{
    call->registers[number].bytes |= with << (8 * byte);
}

static void taint_vector(struct call *call, uint32_t number, uint32_t byte, uint64_t with)
{
    call->vectors.taint[number][byte / 8].bytes |= with << (8 * (byte % 8));
}

/* Asks, and holds that nothing is written but the links. */
static struct milestarling_why_reply ask(const struct call *call, const char *what)
{
    struct milestarling_why_reply why;
    memset(links, 0xee, sizeof links);
    why = milestarling_why(call->words, call->words_length, call->trace, call->trace_length, call->statuses,
        call->statuses_length, call->steps, call->registers, call->vectors.taint, call->taint, call->taint_length, call->origin,
        call->readonly, call->memory_length, call->step, call->place.kind, call->place.number, call->place.byte, links,
        call->links_length);
    hold(why.answer == MILESTARLING_DONE || why.links == 0, what);
    hold(why.links <= call->step + 1, what);
    for (size_t i = 3 * why.links; i < ROOM; i++)
        hold(links[i] == UINT64_C(0xeeeeeeeeeeeeeeee), what);
    asked++;
    return why;
}

static void expect(const struct call *call, uint64_t answer, const char *what)
{
    const struct milestarling_why_reply why = ask(call, what);
    if (why.answer != answer)
        printf("answer %" PRIu64 " and not %" PRIu64 ": ", why.answer, answer);
    hold(why.answer == answer, what);
}

/* Each path, with just the room that it needs; with a number less it is refused. */
static void expect_paths(struct call call, const struct path *paths, size_t count, const char *what)
{
    for (size_t i = 0; i < count; i++) {
        call.step = paths[i].step;
        call.place = paths[i].place;
        call.links_length = 3 * paths[i].count;
        const struct milestarling_why_reply why = ask(&call, what);
        const size_t bytes = paths[i].count * sizeof *paths[i].links;
        if (why.answer != MILESTARLING_DONE || why.links != paths[i].count || memcmp(links, paths[i].links, bytes) != 0) {
            printf("path %zu: answer %" PRIu64 ", %" PRIu64 " links\n", i, why.answer, why.links);
            hold(0, what);
        }
        if (paths[i].count == 0)
            continue;
        call.links_length--;
        expect(&call, MILESTARLING_NO_ROOM, what);
    }
}

#define COUNT(list) (sizeof(list) / sizeof *(list))

/* Where the brackets say that an access is doesn't count: the trace does. */
static const struct step long_way[] = {
    {"ldrb w2, [x0]", 1, 0x1008, 0},
    {"strb w2, [x1]", 65, 0x1010, 0},
    {"ldrsb x3, [x1]", 1, 0x1010, 0},
    {"stp x3, x4, [x1, #16]", 80, 0x1020, 0},
    {"ldp x5, x6, [x1, #8]", 16, 0x1018, 0},
    {"ldr q7, [x1, #16]", 16, 0x1020, 0},
    {"str q7, [x1, #32]", 80, 0x1030, 0},
    {"stxr w8, x9, [x1]", 72, 0x1018, 1},
    {"ldr x10, [x1]", 8, 0x1018, 0},
    {"str xzr, [x1]", 72, 0x1020, 0},
    {"prfm pldl1keep, [x0]", 0, 0, 0},
    {"ldr x0, [x3], #8", 8, 0x1000, 0},
};

/* Tainted at the start: 0x1008 and 0x1018, all of x9, x4's highest byte, x8's lowest, and v7's byte 1. */
static struct call along_the_way(void)
{
    struct call call = call_of(long_way, COUNT(long_way));
    call.taint[8] = 255;
    call.taint[0x18] = 128;
    for (uint32_t i = 0; i < 8; i++)
        taint_register(&call, 9, i, 1 + i);
    taint_register(&call, 4, 7, 2);
    taint_register(&call, 8, 0, 64);
    taint_vector(&call, 7, 1, 255);
    return call;
}

static void paths_lead_back_to_the_start(void)
{
    static const struct path paths[] = {
        {0, X(2, 0), 0, {{0, 0, 0}}},
        {0, AT(0x1008), 1, {OF_AT(0x1008, 0)}},
        {0, X(9, 3), 1, {OF_X(9, 3, 0)}},
        {1, X(2, 0), 2, {OF_X(2, 0, 1), OF_AT(0x1008, 0)}},
        {1, X(2, 1), 0, {{0, 0, 0}}},
        {2, AT(0x1010), 3, {OF_AT(0x1010, 2), OF_X(2, 0, 1), OF_AT(0x1008, 0)}},
        {2, AT(0x1011), 0, {{0, 0, 0}}},
        {2, AT(0x100f), 0, {{0, 0, 0}}},
        /* a sign copy is explained by the top byte loaded */
        {3, X(3, 7), 4, {OF_X(3, 7, 3), OF_AT(0x1010, 2), OF_X(2, 0, 1), OF_AT(0x1008, 0)}},
        /* the halves of a pair */
        {4, AT(0x1027), 5, {OF_AT(0x1027, 4), OF_X(3, 7, 3), OF_AT(0x1010, 2), OF_X(2, 0, 1), OF_AT(0x1008, 0)}},
        {4, AT(0x102f), 2, {OF_AT(0x102f, 4), OF_X(4, 7, 0)}},
        {4, AT(0x102e), 0, {{0, 0, 0}}},
        {5, X(5, 0), 2, {OF_X(5, 0, 5), OF_AT(0x1018, 0)}},
        {5, X(6, 0), 6,
            {OF_X(6, 0, 5), OF_AT(0x1020, 4), OF_X(3, 0, 3), OF_AT(0x1010, 2), OF_X(2, 0, 1), OF_AT(0x1008, 0)}},
        /* a vector register, before it is loaded and after */
        {5, V(7, 1), 1, {OF_V(7, 1, 0)}},
        {6, V(7, 1), 6,
            {OF_V(7, 1, 6), OF_AT(0x1021, 4), OF_X(3, 1, 3), OF_AT(0x1010, 2), OF_X(2, 0, 1), OF_AT(0x1008, 0)}},
        {6, V(7, 15), 3, {OF_V(7, 15, 6), OF_AT(0x102f, 4), OF_X(4, 7, 0)}},
        {6, V(7, 14), 0, {{0, 0, 0}}},
        {6, X(7, 1), 0, {{0, 0, 0}}},
        {7, AT(0x1030), 7, {OF_AT(0x1030, 7), OF_V(7, 0, 6), OF_AT(0x1020, 4), OF_X(3, 0, 3), OF_AT(0x1010, 2), OF_X(2, 0, 1),
            OF_AT(0x1008, 0)}},
        {7, AT(0x103f), 4, {OF_AT(0x103f, 7), OF_V(7, 15, 6), OF_AT(0x102f, 4), OF_X(4, 7, 0)}},
        /* a store-exclusive that failed stores nothing, and its status clears a register */
        {7, X(8, 0), 1, {OF_X(8, 0, 0)}},
        {8, X(8, 0), 0, {{0, 0, 0}}},
        {8, AT(0x1018), 1, {OF_AT(0x1018, 0)}},
        {8, AT(0x1019), 0, {{0, 0, 0}}},
        {9, X(10, 0), 2, {OF_X(10, 0, 9), OF_AT(0x1018, 0)}},
        {9, X(10, 1), 0, {{0, 0, 0}}},
        /* what is stored of the zero register comes from nowhere, and copies stay */
        {9, AT(0x1020), 5, {OF_AT(0x1020, 4), OF_X(3, 0, 3), OF_AT(0x1010, 2), OF_X(2, 0, 1), OF_AT(0x1008, 0)}},
        {10, AT(0x1020), 0, {{0, 0, 0}}},
        {12, V(7, 15), 3, {OF_V(7, 15, 6), OF_AT(0x102f, 4), OF_X(4, 7, 0)}},
        /* a prefetch sets nothing, and a base that is written back is cleared */
        {11, X(3, 7), 4, {OF_X(3, 7, 3), OF_AT(0x1010, 2), OF_X(2, 0, 1), OF_AT(0x1008, 0)}},
        {12, X(3, 7), 0, {{0, 0, 0}}},
        {12, AT(0x1010), 3, {OF_AT(0x1010, 2), OF_X(2, 0, 1), OF_AT(0x1008, 0)}},
    };
    expect_paths(along_the_way(), paths, COUNT(paths), "a long way");
}

/* The same store-exclusive, where it didn't fail; and a status of 1 where there is none, which says nothing. */
static void statuses_decide(void)
{
    static const struct path stored[] = {
        {8, AT(0x1018), 2, {OF_AT(0x1018, 8), OF_X(9, 0, 0)}},
        {8, AT(0x1019), 2, {OF_AT(0x1019, 8), OF_X(9, 1, 0)}},
        {8, X(8, 0), 0, {{0, 0, 0}}},
        {9, X(10, 7), 3, {OF_X(10, 7, 9), OF_AT(0x101f, 8), OF_X(9, 7, 0)}},
    };
    static const struct path ignored[] = {
        {4, AT(0x102f), 2, {OF_AT(0x102f, 4), OF_X(4, 7, 0)}},
        {9, X(10, 0), 2, {OF_X(10, 0, 9), OF_AT(0x1018, 0)}},
    };
    struct call call = along_the_way();
    call.statuses[7] = 0;
    expect_paths(call, stored, COUNT(stored), "a store-exclusive that stores");
    call = along_the_way();
    call.statuses[3] = call.statuses[8] = call.statuses[10] = 1;
    expect_paths(call, ignored, COUNT(ignored), "a status of a word that has none");
}

/* Which bytes a load fills, which are copies of its sign, and which it clears. All registers and 0x100b, 0x1013 and 0x1017 are
   tainted at the start. */
static void loads_fill_and_clear(void)
{
    static const struct step loads[] = {
        {"ldrsh w1, [x0]", 2, 0x100a, 0},
        {"ldrsh x2, [x0]", 2, 0x100a, 0},
        {"ldpsw x3, x4, [x0]", 8, 0x1010, 0},
        {"ldrb w5, [x0]", 1, 0x100b, 0},
        {"ldr s6, [x0]", 4, 0x1010, 0},
        {"ldp d7, d8, [x0]", 16, 0x1010, 0},
        {"ldr q31, [sp, #16]!", 16, 0x1008, 0},
        {"ldr xzr, [x0]", 8, 0x1008, 0},
    };
    static const struct path paths[] = {
        {8, X(1, 0), 0, {{0, 0, 0}}},
        {8, X(1, 1), 2, {OF_X(1, 1, 1), OF_AT(0x100b, 0)}},
        {8, X(1, 3), 2, {OF_X(1, 3, 1), OF_AT(0x100b, 0)}},
        {8, X(1, 4), 0, {{0, 0, 0}}},
        {0, X(1, 4), 1, {OF_X(1, 4, 0)}},
        {8, X(2, 7), 2, {OF_X(2, 7, 2), OF_AT(0x100b, 0)}},
        {8, X(3, 2), 0, {{0, 0, 0}}},
        {8, X(3, 3), 2, {OF_X(3, 3, 3), OF_AT(0x1013, 0)}},
        {8, X(3, 4), 2, {OF_X(3, 4, 3), OF_AT(0x1013, 0)}},
        {8, X(4, 2), 0, {{0, 0, 0}}},
        {8, X(4, 7), 2, {OF_X(4, 7, 3), OF_AT(0x1017, 0)}},
        {8, X(5, 0), 2, {OF_X(5, 0, 4), OF_AT(0x100b, 0)}},
        {8, X(5, 1), 0, {{0, 0, 0}}},
        {8, V(6, 3), 2, {OF_V(6, 3, 5), OF_AT(0x1013, 0)}},
        {8, V(6, 4), 0, {{0, 0, 0}}},
        {4, V(6, 15), 1, {OF_V(6, 15, 0)}},
        {8, V(6, 15), 0, {{0, 0, 0}}},
        {8, V(7, 7), 2, {OF_V(7, 7, 6), OF_AT(0x1017, 0)}},
        {8, V(8, 7), 0, {{0, 0, 0}}},
        {8, V(8, 8), 0, {{0, 0, 0}}},
        /* 31 is v31, sp where it is the base, and not sp where it is loaded */
        {7, V(31, 3), 2, {OF_V(31, 3, 7), OF_AT(0x100b, 0)}},
        {8, V(31, 15), 2, {OF_V(31, 15, 7), OF_AT(0x1017, 0)}},
        {6, X(31, 3), 1, {OF_X(31, 3, 0)}},
        {7, X(31, 3), 0, {{0, 0, 0}}},
        {8, X(31, 3), 0, {{0, 0, 0}}},
    };
    struct call call = call_of(loads, COUNT(loads));
    memset(call.registers, 1, sizeof call.registers);
    memset(call.vectors.taint, 1, sizeof call.vectors.taint);
    call.taint[0xb] = call.taint[0x13] = call.taint[0x17] = 1;
    expect_paths(call, paths, COUNT(paths), "a load");
}

/* 1: of an empty run, so that nothing of its steps is wrong; of memory that ends with the address space too. */
static void windows_are_refused(void)
{
    struct call call = call_of(NULL, 0);
    expect(&call, MILESTARLING_DONE, "a window");
    call.readonly = LENGTH;
    expect(&call, MILESTARLING_DONE, "a window that is read-only");
    call.readonly = LENGTH + 1;
    expect(&call, MILESTARLING_BAD_WINDOW, "more bytes that are read-only than there are");
    call.readonly = 0;
    call.origin = UINT64_MAX - LENGTH + 1;
    expect(&call, MILESTARLING_DONE, "a window at the end of the address space");
    call.origin++;
    expect(&call, MILESTARLING_BAD_WINDOW, "a window above the address space");
    call.origin = ORIGIN;
    call.taint_length = LENGTH - 1;
    expect(&call, MILESTARLING_BAD_WINDOW, "a taint byte too few");
    call.taint_length = LENGTH + 1;
    expect(&call, MILESTARLING_BAD_WINDOW, "a taint byte too many");
    call.taint_length = call.memory_length = 0;
    expect(&call, MILESTARLING_DONE, "no memory");
    call.readonly = 1;
    expect(&call, MILESTARLING_BAD_WINDOW, "a byte that is read-only, and no memory");
    call.memory_length = UINT64_MAX;
    expect(&call, MILESTARLING_BAD_WINDOW, "more memory than there can be");
}

/* 7 and 11. */
static void places_are_refused(void)
{
    static const struct {
        uint64_t origin;
        struct milestarling_place place;
        uint64_t answer;
    } tries[] = {
        {ORIGIN, AT(ORIGIN - 1), 7}, {ORIGIN, AT(ORIGIN), 0}, {ORIGIN, AT(ORIGIN + 63), 0}, {ORIGIN, AT(ORIGIN + 64), 7},
        {ORIGIN, AT(0), 7}, {ORIGIN, AT(UINT64_MAX), 7}, {UINT64_MAX - 63, AT(UINT64_MAX), 0}, {UINT64_MAX - 63, AT(0), 7},
        {ORIGIN, {1, ORIGIN, UINT64_MAX}, 0}, {ORIGIN, X(31, 7), 0}, {ORIGIN, X(32, 0), 11}, {ORIGIN, X(0, 8), 11},
        {ORIGIN, X(UINT64_C(1) << 60, 0), 11}, {ORIGIN, X(0, UINT64_MAX), 11}, {ORIGIN, V(31, 15), 0}, {ORIGIN, V(32, 0), 11},
        {ORIGIN, V(0, 16), 11}, {ORIGIN, V(UINT64_MAX, UINT64_MAX), 11}, {ORIGIN, {3, 0, 0}, 11}, {ORIGIN, {3, ORIGIN, 0}, 11},
        {ORIGIN, {UINT64_MAX, 0, 0}, 11}, {ORIGIN, {UINT64_C(1) << 32, 0, 0}, 11},
    };
    struct call call = call_of(NULL, 0);
    for (size_t i = 0; i < COUNT(tries); i++) {
        char what[32];
        sprintf(what, "place %zu", i);
        call.origin = tries[i].origin;
        call.place = tries[i].place;
        expect(&call, tries[i].answer, what);
    }
    call.taint_length = call.memory_length = call.readonly = 0;
    call.place = milestarling_place_memory(call.origin);
    expect(&call, MILESTARLING_OUT_OF_WINDOW, "no byte of no memory");
}

/* 17 of one step, whether it lies before the step asked about or after it. */
static void expect_step(const struct step *step, uint64_t answer)
{
    struct call call = call_of(step, 1);
    expect(&call, answer, step->line);
    call.step = 1;
    expect(&call, answer, step->line);
}

static void steps_of_no_run_are_refused(void)
{
    static const struct {
        struct step step;
        uint64_t answer;
    } tries[] = {
        /* 7: an access inside memory; the base, PC and what a literal's address counts from aren't looked at */
        {{"ldr x0, [x1]", 8, 0x1000, 0}, 0}, {{"ldr x0, [x1]", 8, 0xfff, 0}, 17}, {{"ldr x0, [x1]", 8, 0x1038, 0}, 0},
        {{"ldr x0, [x1]", 8, 0x1039, 0}, 17}, {{"ldr x0, [x1]", 8, UINT64_MAX, 0}, 17}, {{"ldr x0, #8", 8, 0x1001, 0}, 0},
        {{"ldp q0, q1, [x1]", 32, 0x1020, 0}, 0}, {{"ldp q0, q1, [x1]", 32, 0x1021, 0}, 17},
        /* 8: a store to the read-only part, of a store-exclusive that failed too */
        {{"str x0, [x1]", 72, 0x1010, 0}, 0}, {{"str x0, [x1]", 72, 0x100f, 0}, 17}, {{"strb w0, [x1]", 65, 0x100f, 0}, 17},
        {{"stxr w2, x0, [x1]", 72, 0x1010, 1}, 0}, {{"stxr w2, x0, [x1]", 72, 0x1008, 1}, 17},
        /* 6: an exclusive access is aligned, an ordered one inside a block of 16 bytes; SP isn't looked at */
        {{"stxr w2, x0, [x1]", 72, 0x1014, 1}, 17}, {{"ldxr x0, [x1]", 8, 0x1008, 0}, 0}, {{"ldxr x0, [x1]", 8, 0x100c, 0}, 17},
        {{"ldxr w0, [x1]", 4, 0x100c, 0}, 0}, {{"ldapur x0, [x1]", 8, 0x1008, 0}, 0}, {{"ldapur x0, [x1]", 8, 0x1009, 0}, 17},
        {{"stlr w0, [x1]", 68, 0x101c, 0}, 0}, {{"stlr w0, [x1]", 68, 0x101d, 0}, 17}, {{"ldr x0, [sp]", 8, 0x1018, 0}, 0},
        /* a code that is the word's */
        {{"ldr x0, [x1]", 0, 0x1000, 0}, 17}, {{"ldr x0, [x1]", 7, 0x1000, 0}, 17}, {{"ldr x0, [x1]", 72, 0x1010, 0}, 17},
        {{"ldr x0, [x1]", UINT64_C(0x100000008), 0x1000, 0}, 17}, {{"str x0, [x1]", 8, 0x1010, 0}, 17},
        {{"ldp x0, x2, [x1]", 8, 0x1000, 0}, 17}, {{"ldp x0, x2, [x1]", 16, 0x1000, 0}, 0},
        {{"stp q0, q1, [x1]", 96, 0x1010, 0}, 0}, {{"ldrsb x0, [x1]", 8, 0x1000, 0}, 17},
        /* a prefetch */
        {{"prfm pldl1keep, [x1]", 0, 0, 0}, 0}, {{"prfm pldl1keep, [x1]", 0, 1, 0}, 17},
        {{"prfm pldl1keep, [x1]", 0, 0x1000, 0}, 17}, {{"prfm pldl1keep, [x1]", 8, 0, 0}, 17},
        {{"prfm pldl1keep, [x1]", 64, 0, 0}, 17}, {{"prfm pldl1keep, [x1]", 0, 0, 2}, 17},
        /* a status */
        {{"ldr x0, [x1]", 8, 0x1000, 1}, 0}, {{"ldr x0, [x1]", 8, 0x1000, 2}, 17}, {{"stxr w2, x0, [x1]", 72, 0x1010, 0}, 0},
        {{"stxr w2, x0, [x1]", 72, 0x1010, 2}, 17}, {{"stxr w2, x0, [x1]", 72, 0x1010, 255}, 17},
    };
    for (size_t i = 0; i < COUNT(tries); i++)
        expect_step(&tries[i].step, tries[i].answer);
}

static void words_of_no_run_are_refused(void)
{
    /* nop; str h0 with opc 10; ldp x0, x0, [x1] */
    static const uint32_t words[3] = {0xd503201f, 0x7d800020, 0xa9400020};
    for (uint64_t i = 0; i < 3; i++) {
        struct call call = along_the_way();
        hold(milestarling_classify(words[i]) == MILESTARLING_NOT_IN_SET + i, "a word of answers 2, 3 and 4");
        call.words[11] = words[i];
        expect(&call, MILESTARLING_BAD_TRACE, "such a word in a run");
        call.steps = 11;
        expect(&call, MILESTARLING_DONE, "and behind its steps");
    }
}

/* The lists may be longer than the steps, and not shorter. */
static void short_lists_are_refused(void)
{
    struct call call = along_the_way();
    call.words_length--;
    expect(&call, MILESTARLING_BAD_TRACE, "a word too few");
    call = along_the_way();
    call.trace_length--;
    expect(&call, MILESTARLING_BAD_TRACE, "a number of the trace too few");
    call = along_the_way();
    call.statuses_length--;
    expect(&call, MILESTARLING_BAD_TRACE, "a status too few");
    call.steps--;
    expect(&call, MILESTARLING_DONE, "longer lists than steps");
    call.steps = 0;
    expect(&call, MILESTARLING_DONE, "no steps");
    call.steps = UINT64_C(1) << 63;
    expect(&call, MILESTARLING_BAD_TRACE, "steps whose numbers no number counts");
    call.steps = UINT64_MAX;
    expect(&call, MILESTARLING_BAD_TRACE, "steps without end");
}

/* 18, and two refusals at once, of which the first is given: 1, 7, 11, 17, 18, 10. */
static void refusals_have_an_order(void)
{
    struct call call = along_the_way();
    call.step = 12;
    expect(&call, MILESTARLING_DONE, "the end");
    call.step = 13;
    expect(&call, MILESTARLING_AFTER_END, "a step after the end");
    call.step = UINT64_MAX;
    expect(&call, MILESTARLING_AFTER_END, "the last step that has a number");
    call.place = milestarling_place_memory(0x1008);
    call.links_length = 0;
    expect(&call, MILESTARLING_AFTER_END, "18 before 10");
    call.statuses[0] = 2;
    expect(&call, MILESTARLING_BAD_TRACE, "17 before 18");
    call.step = 12;
    expect(&call, MILESTARLING_BAD_TRACE, "17 before 10");
    call.place = milestarling_place_vector(0, 16);
    expect(&call, MILESTARLING_NO_SUCH_INSTRUCTION, "11 before 17");
    call.taint_length--;
    expect(&call, MILESTARLING_BAD_WINDOW, "1 before 11");
    call.place = milestarling_place_memory(ORIGIN - 1);
    expect(&call, MILESTARLING_BAD_WINDOW, "1 before 7");
    call.taint_length++;
    expect(&call, MILESTARLING_OUT_OF_WINDOW, "7 before 17");
    call.statuses[0] = 0;
    call.step = 13;
    expect(&call, MILESTARLING_OUT_OF_WINDOW, "7 before 18");
    call.place = milestarling_place_register(32, 0);
    expect(&call, MILESTARLING_NO_SUCH_INSTRUCTION, "11 before 18");
}

/* Memory that ends with the address space has its last address in a link. */
static void the_last_byte_has_an_address(void)
{
    static const struct step steps[] = {
        {"ldrb w2, [x0]", 1, UINT64_MAX, 0}, {"strb w2, [x0]", 65, UINT64_MAX - 8, 0}, {"strb wzr, [x0]", 65, UINT64_MAX, 0}};
    static const struct path paths[] = {
        {2, AT(UINT64_MAX - 8), 3, {OF_AT(UINT64_MAX - 8, 2), OF_X(2, 0, 1), OF_AT(UINT64_MAX, 0)}},
        {3, AT(UINT64_MAX), 0, {{0, 0, 0}}},
    };
    struct call call = call_of(steps, COUNT(steps));
    call.origin = UINT64_MAX - LENGTH + 1;
    call.taint[LENGTH - 1] = 1;
    expect_paths(call, paths, COUNT(paths), "the last byte");
}

/* The registers and memory of a run, and how it is begun. */
struct machine {
    struct milestarling_session session;
    struct milestarling_vectors vectors;
    uint8_t bytes[LENGTH], taint[LENGTH];
};

static void begin(struct machine *machine)
{
    memset(machine, 0, sizeof *machine);
    milestarling_set_register(&machine->session, 0, 0x1008, MILESTARLING_TAINT_NONE);
    milestarling_set_register(&machine->session, 1, 0x1018, MILESTARLING_TAINT_NONE);
    milestarling_set_register(&machine->session, 9, 0, milestarling_taint_bytes(1, 6));
    milestarling_set_register(&machine->session, MILESTARLING_SP, 0x1040, MILESTARLING_TAINT_NONE);
    for (uint32_t i = 0; i < MILESTARLING_VECTORS; i++)
        machine->vectors.taint[i][i % 2] = milestarling_taint_bytes(i % 8, 3);
    for (size_t i = 0; i < LENGTH; i += 5)
        machine->taint[i] = (uint8_t)(i + 1);
}

static const char *const lines[] = {
    "ldrb w2, [x0]", "strb w2, [x1]", "ldrsh x3, [x1], #8", "stp x3, x9, [x1, #8]", "ldp x5, x6, [x1]", "ldur q7, [x1, #8]",
    "stp q7, q30, [sp, #-32]!", "ldxr x4, [x1]", "stxr w8, x9, [x1]", "stxr w9, x2, [x1]", "ldr x10, [x1]", "str xzr, [x1, #8]",
    "prfm pldl1keep, [x0]", "ldp d1, d2, [x1], #8", "ldpsw x11, x12, [x1, #-4]!", "str h30, [x1]"};

/* Does so many words. */
static uint64_t run(struct machine *machine, const uint32_t *words, size_t count, struct milestarling_access *trace, uint8_t *statuses)
{
    const struct milestarling_memory memory = {machine->bytes, LENGTH, machine->taint, LENGTH, ORIGIN, READONLY};
    const struct milestarling_run_reply ran =
        milestarling_session_run(memory, &machine->session, &machine->vectors, words, count, trace, count, statuses, count);
    hold(ran.answer == MILESTARLING_DONE, "a run");
    return ran.steps;
}

/* A place has a path exactly if it is tainted: from the place itself, by earlier steps each, to the start. */
static void expect_reason(struct milestarling_start start, struct milestarling_history history, uint64_t step,
    struct milestarling_place place, int tainted)
{
    struct milestarling_link found[COUNT(lines) + 1];
    const struct milestarling_why_reply why = milestarling_session_why(start, history, step, place, found, step + 1);
    hold(why.answer == MILESTARLING_DONE && (why.links != 0) == tainted, "a path exactly if it is tainted");
    held++;
    if (why.links == 0)
        return;
    hold(found[0].kind == place.kind, "the place itself");
    hold(place.kind == MILESTARLING_PLACE_MEMORY ? found[0].number == place.number
        : milestarling_link_register(found[0]) == place.number && milestarling_link_byte(found[0]) == place.byte, "by its number");
    for (uint64_t i = 0; i < why.links; i++) {
        hold(found[i].step < (i == 0 ? step + 1 : found[i - 1].step), "an earlier step");
        hold((found[i].step == 0) == (i + 1 == why.links), "up to the start");
    }
}

static void a_run_is_explained(void)
{
    static struct machine first, machine;
    uint32_t words[COUNT(lines)];
    struct milestarling_access trace[COUNT(lines)];
    uint8_t statuses[COUNT(lines)];
    const struct milestarling_start start = {&first.session, &first.vectors, first.taint, LENGTH, ORIGIN, READONLY, LENGTH};
    struct milestarling_history history = {words, COUNT(words), trace, COUNT(trace), statuses, COUNT(statuses), 0};
    for (size_t i = 0; i < COUNT(lines); i++)
        words[i] = word_of(lines[i]);
    begin(&first);
    machine = first;
    history.steps = run(&machine, words, COUNT(words), trace, statuses);
    hold(statuses[8] == 0 && statuses[9] == 1, "a store-exclusive that stores, and one that doesn't");
    for (uint32_t step = 0; step <= COUNT(lines); step++) {
        struct milestarling_access ignored_trace[COUNT(lines)];
        uint8_t ignored[COUNT(lines)];
        machine = first;
        run(&machine, words, step, ignored_trace, ignored);
        for (uint32_t i = 0; i < 32 * 8; i++)
            expect_reason(start, history, step, milestarling_place_register(i / 8, i % 8),
                (machine.session.value_taint[i / 8].bytes >> (8 * (i % 8)) & 255) != 0);
        for (uint32_t i = 0; i < 32 * 16; i++)
            expect_reason(start, history, step, milestarling_place_vector(i / 16, i % 16),
                (machine.vectors.taint[i / 16][i % 16 / 8].bytes >> (8 * (i % 8)) & 255) != 0);
        for (uint32_t i = 0; i < LENGTH; i++)
            expect_reason(start, history, step, milestarling_place_memory(ORIGIN + i), machine.taint[i] != 0);
    }
}

int main(void)
{
    paths_lead_back_to_the_start();
    statuses_decide();
    loads_fill_and_clear();
    windows_are_refused();
    places_are_refused();
    steps_of_no_run_are_refused();
    words_of_no_run_are_refused();
    short_lists_are_refused();
    refusals_have_an_order();
    the_last_byte_has_an_address();
    a_run_is_explained();
    printf("why a byte is tainted: %d questions were answered as by hand, and %d as a run left the taints\n", asked, held);
    return 0;
}
