/*
 * Calls every function of the header that answers. With IGNORED each answer is dropped, of which the compiler has to warn at
 * every call; without, each is used, and it has nothing to say. tests/host.sh compiles this file both ways, in every version
 * of C and C++ that the header is for.
 */
#include <stddef.h>

#include "milestarling.h"

#ifdef IGNORED
#define ANSWER(type, call) call
#else
#define ANSWER(type, call)    \
    do {                      \
        type answer = (call); \
        (void)answer;         \
    } while (0)
#endif

int main(void)
{
    struct milestarling_session session = {{0}, {{0}}, 0, 0, 0};
    struct milestarling_vectors vectors = {{{0}}, {{{0}}}};
    const struct milestarling_vectors *const kept = &vectors;
    struct milestarling_memory memory = {NULL, 0, NULL, 0, 0, 0};
    struct milestarling_shared_memory shared = {NULL, 0, NULL, 0, 0};
    const struct milestarling_ranges ranges = {{0, 0}, {0, 0}, {0, 0}};
    struct milestarling_lister lister = {0, 0, 0, 0, 0};
    struct milestarling_instruction numbers = {0, 0, 0, 0, 0, 0, 0, 0, 0, 0, 0, 0, 0};
    uint8_t bytes[4] = {0}, taint[4] = {0}, statuses[1] = {0};
    uint64_t trace[2] = {0}, numbered[3] = {0}, value = 0, halves[2] = {0};
    char string[1] = {0};
    const struct milestarling_taint none = MILESTARLING_TAINT_NONE;
    const uint32_t words[1] = {0};
    const struct milestarling_start start = {&session, &vectors, NULL, 0, 0, 0, 0};
    const struct milestarling_history history = {NULL, 0, NULL, 0, NULL, 0, 0};
    const struct milestarling_place place = {0, 0, 0};
    const struct milestarling_link link = {0, 0, 0};

    ANSWER(uint32_t, milestarling_version());
    ANSWER(int, milestarling_version_fits());
    ANSWER(struct milestarling_run_reply, milestarling_run(words, 1, session, vectors.value, vectors.taint, 0, 0, bytes, 4, taint, 4,
        trace, 2, statuses, 1));
    ANSWER(struct milestarling_step_reply, milestarling_step(0, &session, vectors.value, vectors.taint, 0, 0, bytes, 4, taint, 4));
    ANSWER(struct milestarling_run_reply, milestarling_turn(words, 1, session, vectors.value, vectors.taint, 0, ranges, bytes, 4,
        taint, 4, trace, 2, statuses, 1));
    ANSWER(struct milestarling_vector_register, milestarling_vector(0, kept->value, kept->taint));
    ANSWER(struct milestarling_session, milestarling_opened(session));
    ANSWER(struct milestarling_session, milestarling_observed(session, 0, 0, 0));
    ANSWER(struct milestarling_why_reply, milestarling_why(words, 1, trace, 2, statuses, 1, 0, session.value_taint, kept->taint,
        taint, 4, 0, 0, 4, 0, 0, 0, 0, numbered, 3));
    ANSWER(struct milestarling_import_reply, milestarling_import(statuses, 1, 0, 0, bytes, 4, taint, 4));
    ANSWER(struct milestarling_text_reply, milestarling_text(0, bytes, 4));
    ANSWER(struct milestarling_word_reply, milestarling_word(bytes, 4));
    ANSWER(struct milestarling_text_reply, milestarling_text_string(0, string, 1));
    ANSWER(struct milestarling_word_reply, milestarling_word_string(string));
    ANSWER(struct milestarling_text_reply, milestarling_list(bytes, 4, taint, 4));
    ANSWER(struct milestarling_rescue_reply, milestarling_rescue(bytes, 4, taint, 4, statuses, 1));
    ANSWER(size_t, milestarling_rescue_lines(bytes, 4));
    ANSWER(struct milestarling_lister_reply, milestarling_lister_push(lister, bytes, 4, taint, 4));
    ANSWER(struct milestarling_lister_reply, milestarling_lister_close(lister, taint, 4));
    ANSWER(uint64_t, milestarling_classify(0));
    ANSWER(uint64_t, milestarling_touches_memory(0));
    ANSWER(int, milestarling_touches_memory_inline(0));
    ANSWER(struct milestarling_decode_reply, milestarling_decode(0));
    ANSWER(struct milestarling_word_reply, milestarling_encode(numbers));
    ANSWER(struct milestarling_taint, milestarling_taint_bytes(0, 8));
    ANSWER(struct milestarling_taint, milestarling_taint_union(none, none));
    ANSWER(struct milestarling_taint, milestarling_taint_carried(none));
    ANSWER(struct milestarling_taint, milestarling_taint_word(none));
    ANSWER(uint64_t, milestarling_value(&session, 0));
    ANSWER(struct milestarling_taint, milestarling_taint_of(&session, 0));
    ANSWER(int, milestarling_tainted(&session, 0));
    ANSWER(int, milestarling_known(&session, 0, &value));
    ANSWER(struct milestarling_vector_register, milestarling_vectors_get(&vectors, 0));
    ANSWER(int, milestarling_vectors_tainted(&vectors, 0));
    ANSWER(int, milestarling_vectors_known(&vectors, 0, halves));
    ANSWER(uint64_t, milestarling_memory_reaches(memory, 0, 0));
    ANSWER(uint64_t, milestarling_memory_write(memory, 0, NULL, 0, 0));
    ANSWER(uint64_t, milestarling_memory_read(memory, 0, NULL, NULL, 0));
    ANSWER(struct milestarling_run_reply, milestarling_session_run(memory, &session, &vectors, words, 1, NULL, 0, statuses, 1));
    ANSWER(struct milestarling_step_reply, milestarling_session_step(memory, &session, &vectors, 0));
    ANSWER(struct milestarling_step_reply, milestarling_session_step_in(&memory, 1, &session, &vectors, 0));
    ANSWER(struct milestarling_memory, milestarling_shared_whole(shared));
    ANSWER(struct milestarling_ranges, milestarling_ranges_swapped(ranges));
    ANSWER(struct milestarling_run_reply, milestarling_session_turn(shared, ranges, &session, &vectors, words, 1, NULL, 0, statuses,
        1));
    ANSWER(struct milestarling_import_reply, milestarling_memory_import(memory, statuses, 1));
    ANSWER(struct milestarling_place, milestarling_place_register(0, 0));
    ANSWER(struct milestarling_place, milestarling_place_vector(0, 0));
    ANSWER(struct milestarling_place, milestarling_place_memory(0));
    ANSWER(uint64_t, milestarling_link_register(link));
    ANSWER(uint64_t, milestarling_link_byte(link));
    ANSWER(struct milestarling_why_reply, milestarling_session_why(start, history, 0, place, NULL, 0));
    ANSWER(const char *, milestarling_answer_text(0));
    return 0;
}
