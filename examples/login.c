/*
 * Runs the start of a login plugin in a window of 64 bytes, in which the length of a password is a secret, and shows
 * the step that is refused because its address would tell the secret.
 */
#include <inttypes.h>
#include <stdio.h>
#include <string.h>

#include "milestarling.h"

#define COUNT 4

static const char *const lines[COUNT] = {
    "stp x29, x30, [sp, #-32]!",
    "ldr w1, [x0, #8]",
    "str w1, [sp, #16]",
    "ldrb w2, [x0, w1, uxtw]",
};

/* Whether the library that is linked is one for the header; says which it is where it isn't. */
static int right_library(void)
{
    const uint32_t linked = milestarling_version();
    if (milestarling_version_fits())
        return 1;
    fprintf(stderr, "the library is version %" PRIu32 ".%" PRIu32 ".%" PRIu32 ", and the header %s\n", linked / 1000000,
        linked / 1000 % 1000, linked % 1000, MILESTARLING_VERSION);
    return 0;
}

int main(void)
{
    if (!right_library())
        return 1;
    uint32_t words[COUNT];
    uint8_t bytes[4 * COUNT];
    for (size_t i = 0; i < COUNT; i++) {
        struct milestarling_word_reply read = milestarling_word_string(lines[i]);
        if (read.answer != MILESTARLING_DONE) {
            printf("%s: answer %" PRIu64 "\n", lines[i], read.answer);
            return 1;
        }
        words[i] = (uint32_t)read.word;
        for (size_t k = 0; k < 4; k++)
            bytes[4 * i + k] = (uint8_t)(words[i] >> (8 * k));
    }

    uint8_t output[COUNT * MILESTARLING_LINE_MAX];
    struct milestarling_text_reply listed = milestarling_list(bytes, sizeof bytes, output, sizeof output);
    if (listed.answer != MILESTARLING_DONE)
        return 1;
    fwrite(output, 1, (size_t)listed.length, stdout);

    /* x0 points to the password's record, whose length stands at 8 and is tainted; the stack ends with memory. */
    struct milestarling_session session = {.pc = 0x8000};
    struct milestarling_vectors vectors = {0};
    uint8_t memory[64] = {0}, taint[64] = {0}, statuses[COUNT];
    uint64_t trace[2 * COUNT];
    milestarling_set_register(&session, 0, 0x1000, MILESTARLING_TAINT_NONE);
    milestarling_set_register(&session, MILESTARLING_SP, 0x1000 + sizeof memory, MILESTARLING_TAINT_NONE);
    memory[8] = 5;
    memset(taint + 8, 1, 4);
    struct milestarling_run_reply ran = milestarling_run(
        words, COUNT, session, vectors.value, vectors.taint, 0x1000, 0, memory, sizeof memory, taint, sizeof taint, trace, 2 * COUNT,
        statuses, COUNT);
    session = ran.session;

    for (uint64_t i = 0; i < ran.steps; i++)
        printf("code %" PRIu64 ", address 0x%" PRIx64 "\n", trace[2 * i], trace[2 * i + 1]);
    printf("steps %" PRIu64 ", answer %" PRIu64 ", pc 0x%" PRIx64 "\n", ran.steps, ran.answer, session.pc);
    printf("x1 is %" PRIu64 ", taint %016" PRIx64 "; the byte at 48 is %d, taint %d\n", milestarling_value(&session, 1),
        milestarling_taint_of(&session, 1).bytes, memory[48], taint[48]);
    if (ran.answer == MILESTARLING_TAINTED_ADDRESS) {
        char text[MILESTARLING_STRING_MAX];
        if (milestarling_text_string(words[ran.steps], text, sizeof text).answer != MILESTARLING_DONE)
            return 1;
        printf("refused: %s\n", text);
    }
    return 0;
}
