/*
 * Runs the spin lock of examples/lock.c on a session: it is taken, given back, and lost to another session, whose steps and
 * runs this one's monitor observes. Its branches on the lock and on the status are the host's; examples/turns.c does them.
 */
#include <inttypes.h>
#include <stdio.h>
#include <stdlib.h>

#include "milestarling.h"

enum { LOCK = 0x1000 };

/* A session's record and its vector registers. */
struct plugin {
    struct milestarling_session session;
    struct milestarling_vectors vectors;
};

static uint8_t bytes[8], taint[8];
static const struct milestarling_memory memory = {
    .bytes = bytes, .length = sizeof bytes, .taint = taint, .taint_length = sizeof taint, .origin = LOCK};

/* Nothing here is to be refused. */
static void expect_done(const char *what, uint64_t answer)
{
    if (answer != MILESTARLING_DONE) {
        printf("%s: %s\n", what, milestarling_answer_text(answer));
        exit(1);
    }
}

static uint32_t word(const char *line)
{
    struct milestarling_word_reply reply = milestarling_word_string(line);
    expect_done(line, reply.answer);
    return (uint32_t)reply.word;
}

/* Does one word, and shows what became of the lock. */
static struct milestarling_step_reply step(struct plugin *plugin, const char *line)
{
    struct milestarling_step_reply reply = milestarling_session_step(memory, &plugin->session, &plugin->vectors, word(line));
    expect_done(line, reply.answer);
    printf("%s: status %" PRIu64 "; the lock is %d, the monitor has %" PRIu64 " bytes\n", line, reply.status, bytes[0],
        plugin->session.monitor_size);
    return reply;
}

/* Takes the lock by a run, and lets another session observe it. */
static void take(struct plugin *plugin, struct plugin *other)
{
    const uint32_t words[2] = {word("ldaxr w1, [x0]"), word("stxr w3, w2, [x0]")};
    struct milestarling_access trace[2];
    uint8_t statuses[2];
    struct milestarling_run_reply ran =
        milestarling_session_run(memory, &plugin->session, &plugin->vectors, words, 2, trace, 2, statuses, 2);
    milestarling_observe_run(&other->session, trace, statuses, ran.steps);
    expect_done("a run", ran.answer);
    printf("a run of two: statuses %d %d; the lock was %" PRIu64 ", and is %d\n", statuses[0], statuses[1],
        milestarling_value(&plugin->session, 1), bytes[0]);
}

int main(void)
{
    struct plugin ours = {0}, theirs;
    milestarling_set_register(&ours.session, 0, LOCK, MILESTARLING_TAINT_NONE);
    milestarling_set_register(&ours.session, 2, 1, MILESTARLING_TAINT_NONE);
    theirs = ours;

    take(&ours, &theirs);
    milestarling_observe_step(&theirs.session, step(&ours, "stlr wzr, [x0]"));
    milestarling_observe_step(&theirs.session, step(&ours, "ldaxr w1, [x0]"));

    puts("another session's turn, in which it loads the lock");
    milestarling_observe_step(&ours.session, step(&theirs, "ldr w1, [x0]"));
    printf("our monitor has %" PRIu64 " bytes\n", ours.session.monitor_size);
    puts("and takes it");
    take(&theirs, &ours);
    printf("our monitor has %" PRIu64 " bytes\n", ours.session.monitor_size);

    milestarling_observe_step(&theirs.session, step(&ours, "stxr w3, w2, [x0]"));
    printf("w3 is %" PRIu64 ": the plugin tries again\n", milestarling_value(&ours.session, 3));
    return 0;
}
