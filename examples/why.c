/*
 * Runs a plugin that copies a letter of a password and looks it up in a table, as examples/login.case has it, and tells why the
 * lookup is refused: which byte of its address is tainted, and by which loads and stores it came there. No value is shown.
 */
#include <inttypes.h>
#include <stdio.h>
#include <string.h>

#include "milestarling.h"

enum { PASSWORD = 0x1000, LETTERS = 8, COPY = 0x1010, LENGTH = 32, COUNT = 3 };

static const char *const lines[COUNT] = {"ldrb w2, [x0]", "strb w2, [x1]", "ldrb w4, [x5, x2]"};

/* The words of the lines; returns whether every line has one. */
static int read_words(uint32_t *words)
{
    for (size_t i = 0; i < COUNT; i++) {
        const struct milestarling_word_reply read = milestarling_word_string(lines[i]);
        if (read.answer != MILESTARLING_DONE)
            return 0;
        words[i] = (uint32_t)read.word;
    }
    return 1;
}

/* Prints the line of a word. */
static void print_word(uint32_t word)
{
    char text[MILESTARLING_STRING_MAX];
    if (milestarling_text_string(word, text, sizeof text).answer == MILESTARLING_DONE)
        printf("%s", text);
    else
        printf("%08" PRIx32, word);
}

static void print_place(struct milestarling_link link)
{
    const uint64_t number = milestarling_link_register(link), byte = milestarling_link_byte(link);
    if (link.kind == MILESTARLING_PLACE_MEMORY)
        printf("0x%" PRIx64, link.number);
    else if (link.kind == MILESTARLING_PLACE_VECTOR)
        printf("v%" PRIu64 " byte %" PRIu64, number, byte);
    else if (number == MILESTARLING_SP)
        printf("sp byte %" PRIu64, byte);
    else
        printf("x%" PRIu64 " byte %" PRIu64, number, byte);
}

/* Asks why a place is tainted after all steps of a run, and prints the answer, a line for each link. Returns whether there is one. */
static int explain(struct milestarling_start start, struct milestarling_history run, struct milestarling_place place)
{
    struct milestarling_link links[COUNT + 1]; /* there is never more than one link a step, and the start */
    const struct milestarling_why_reply why = milestarling_session_why(start, run, run.steps, place, links, COUNT + 1);
    if (why.answer != MILESTARLING_DONE) {
        printf("%s\n", milestarling_answer_text(why.answer));
        return 0;
    }
    if (why.links == 0)
        puts("not tainted");
    for (uint64_t i = 0; i < why.links; i++) {
        print_place(links[i]);
        if (links[i].step == 0) {
            puts(": tainted at the start");
            continue;
        }
        printf(": step %" PRIu64 ", ", links[i].step);
        print_word(run.words[links[i].step - 1]);
        printf(", from ");
        print_place(links[i + 1]);
        printf("\n");
    }
    return 1;
}

/* The lowest tainted byte among so many of a register, or that many. */
static uint32_t lowest(const struct milestarling_session *session, uint32_t number, uint32_t count)
{
    const struct milestarling_taint taint = milestarling_taint_of(session, number);
    uint32_t byte = 0;
    while (byte < count && !(taint.bytes >> (8 * byte) & 1))
        byte++;
    return byte;
}

/* The byte for which a word was refused with 5: of its base, which counts whole, or of its index, whose low four bytes count for
   uxtw and sxtw, and else all eight. */
static struct milestarling_place refused_byte(const struct milestarling_session *session, uint32_t word)
{
    const struct milestarling_instruction instruction = milestarling_decode(word).instruction;
    const uint32_t of_base = lowest(session, instruction.base, 8);
    if (of_base < 8)
        return milestarling_place_register(instruction.base, of_base);
    return milestarling_place_register(instruction.index, lowest(session, instruction.index, instruction.option % 2 == 0 ? 4 : 8));
}

int main(void)
{
    uint8_t bytes[LENGTH] = "sesame42", taint[LENGTH] = {0}, taint_before[LENGTH], statuses[COUNT];
    uint32_t words[COUNT];
    struct milestarling_access trace[COUNT];
    const struct milestarling_memory memory = {
        .bytes = bytes, .length = LENGTH, .taint = taint, .taint_length = LENGTH, .origin = PASSWORD};
    struct milestarling_session session = {.pc = 0x10000};
    struct milestarling_vectors vectors = {0};
    if (!read_words(words))
        return 1;
    memset(taint, 1, LETTERS);
    milestarling_set_register(&session, 0, PASSWORD, MILESTARLING_TAINT_NONE);
    milestarling_set_register(&session, 1, COPY, MILESTARLING_TAINT_NONE);
    milestarling_set_register(&session, 5, PASSWORD, MILESTARLING_TAINT_NONE);

    /* The run changes all three, so that a host that means to ask keeps them from before. */
    const struct milestarling_session session_before = session;
    const struct milestarling_vectors vectors_before = vectors;
    memcpy(taint_before, taint, sizeof taint);
    const struct milestarling_run_reply ran =
        milestarling_session_run(memory, &session, &vectors, words, COUNT, trace, COUNT, statuses, COUNT);
    if (ran.answer != MILESTARLING_TAINTED_ADDRESS)
        return 1;
    print_word(words[ran.steps]);
    printf(" is refused after %" PRIu64 " steps: %s\n", ran.steps, milestarling_answer_text(ran.answer));

    const struct milestarling_start start = {
        .session = &session_before, .vectors = &vectors_before, .taint = taint_before, .taint_length = LENGTH,
        .origin = memory.origin, .readonly = memory.readonly, .memory_length = memory.length};
    const struct milestarling_history run = {
        .words = words, .words_length = COUNT, .trace = trace, .trace_length = COUNT,
        .statuses = statuses, .statuses_length = COUNT, .steps = ran.steps};
    int told = explain(start, run, refused_byte(&session, words[ran.steps]));
    printf("the copy at 0x%x:\n", COPY);
    told &= explain(start, run, milestarling_place_memory(COPY));
    puts("the byte beside it:");
    told &= explain(start, run, milestarling_place_memory(COPY + 1));
    return !told;
}
