/*
 * Two members' plugins on one memory. Both read the name that the host has put into the shared range, each has 32 bytes for
 * itself, and they take turns. One tries a byte of the other's, and the other a store to the shared range: each refusal ends one
 * turn, and no more. Each has a lock among its own bytes, which the other's turns between a load-exclusive and its
 * store-exclusive never open, and a lock in the shared range nobody takes.
 */
#include <inttypes.h>
#include <stdio.h>
#include <stdlib.h>

#include "milestarling.h"

enum { SHARED = 0x1000, OURS = 0x1020, THEIRS = 0x1040, EACH = 32, LENGTH = 3 * EACH, LOCK = 8, MOST = 4 };

/* What a host keeps of each plugin, and lends to its turns alone. */
struct plugin {
    const char *name;
    struct milestarling_ranges ranges;
    struct milestarling_session session;
    struct milestarling_vectors vectors;
};

static uint8_t bytes[LENGTH] = "eva", taint[LENGTH];
static const struct milestarling_shared_memory memory = {
    .bytes = bytes, .length = LENGTH, .taint = taint, .taint_length = LENGTH, .origin = SHARED};

static uint32_t word_of(const char *line)
{
    const struct milestarling_word_reply read = milestarling_word_string(line);
    if (read.answer != MILESTARLING_DONE) {
        printf("%s: %s\n", line, milestarling_answer_text(read.answer));
        exit(1);
    }
    return (uint32_t)read.word;
}

/* x0 has the shared range's address and x1 the plugin's own, x2 its lock's, x3 the other's lock's, and w4 is 1. */
static struct plugin plugin_of(const char *name, struct milestarling_ranges ranges)
{
    const uint64_t values[] = {
        ranges.shared.address, ranges.own.address, ranges.own.address + LOCK, ranges.other.address + LOCK, 1};
    struct plugin plugin = {.name = name, .ranges = ranges};
    for (uint32_t i = 0; i < sizeof values / sizeof *values; i++)
        milestarling_set_register(&plugin.session, i, values[i], MILESTARLING_TAINT_NONE);
    return plugin;
}

/* Takes a turn of up to four words, and prints what was done and what was refused. */
static void turn(struct plugin *plugin, const char *const *lines, size_t count)
{
    uint32_t words[MOST];
    struct milestarling_access trace[MOST];
    uint8_t statuses[MOST];
    for (size_t i = 0; i < count; i++)
        words[i] = word_of(lines[i]);
    const struct milestarling_run_reply ran = milestarling_session_turn(
        memory, plugin->ranges, &plugin->session, &plugin->vectors, words, count, trace, MOST, statuses, MOST);
    for (uint64_t i = 0; i < ran.steps; i++) {
        const int store = trace[i].code >= MILESTARLING_STORE_CODE;
        printf("%s: %s: %s of %" PRIu64 " at 0x%" PRIx64 "%s\n", plugin->name, lines[i], store ? "store" : "load",
            trace[i].code % MILESTARLING_STORE_CODE, trace[i].address, statuses[i] ? ", failed" : "");
    }
    if (ran.answer != MILESTARLING_DONE)
        printf("%s: %s: refused (%" PRIu64 ") at 0x%" PRIx64 ": %s\n", plugin->name, lines[ran.steps], ran.answer, ran.address,
            milestarling_answer_text(ran.answer));
}

int main(void)
{
    const struct milestarling_ranges ranges = {
        .shared = {.address = SHARED, .length = EACH},
        .own = {.address = OURS, .length = EACH},
        .other = {.address = THEIRS, .length = EACH}};
    struct plugin a = plugin_of("a", ranges), b = plugin_of("b", milestarling_ranges_swapped(ranges));

    turn(&a, (const char *const[]){"ldr w5, [x0]", "str w5, [x1]", "ldrb w6, [x1, #32]", "str x0, [x1, #16]"}, 4);
    turn(&b, (const char *const[]){"ldr w5, [x0]", "str w5, [x1]", "strb w4, [x0, #31]"}, 3);
    turn(&a, (const char *const[]){"ldaxr w7, [x2]"}, 1);
    turn(&b, (const char *const[]){"ldaxr w7, [x2]", "stxr w8, w4, [x2]", "stp q0, q1, [x1]"}, 3);
    turn(&b, (const char *const[]){"stxr w8, w4, [x3]"}, 1);
    turn(&a, (const char *const[]){"stxr w8, w4, [x2]"}, 1);
    turn(&a, (const char *const[]){"ldaxr w7, [x0]", "stxr w8, w4, [x0]"}, 2);

    const uint8_t *ours = bytes + (OURS - SHARED), *theirs = bytes + (THEIRS - SHARED), zeros[EACH] = {0};
    printf("shared: %s; a has %s, and its lock is %d; b has stored %s over its own\n", (const char *)bytes, (const char *)ours,
        ours[LOCK], memcmp(theirs, zeros, EACH) == 0 ? "zeros" : "something else");
    return 0;
}
