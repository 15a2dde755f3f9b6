// What examples/login.c does, in C++ and over the header's structs: it writes the same.
#include <cinttypes>
#include <cstdio>
#include <string>
#include <vector>

#include "milestarling.h"

namespace {

std::string text_of(uint32_t word)
{
    char text[MILESTARLING_STRING_MAX];
    return milestarling_text_string(word, text, sizeof text).answer == MILESTARLING_DONE ? text : "-";
}

} // namespace

int main()
{
    if (!milestarling_version_fits()) {
        std::fprintf(stderr, "the library isn't version %s, which the header is\n", MILESTARLING_VERSION);
        return 1;
    }
    const std::vector<std::string> lines = {
        "stp x29, x30, [sp, #-32]!", "ldr w1, [x0, #8]", "str w1, [sp, #16]", "ldrb w2, [x0, w1, uxtw]"};
    std::vector<uint32_t> words;
    for (const std::string &line : lines) {
        const milestarling_word_reply read = milestarling_word_string(line.c_str());
        if (read.answer != MILESTARLING_DONE) {
            std::printf("%s: %s\n", line.c_str(), milestarling_answer_text(read.answer));
            return 1;
        }
        words.push_back(static_cast<uint32_t>(read.word));
        std::printf("%08" PRIx32 "\t%s\t0\n", words.back(), text_of(words.back()).c_str());
    }

    // x0 points to the password's record, whose length stands at 8 and is tainted; the stack ends with memory.
    std::vector<uint8_t> bytes(64), taint(64);
    milestarling_memory memory = milestarling_memory();
    memory.bytes = bytes.data();
    memory.length = bytes.size();
    memory.taint = taint.data();
    memory.taint_length = taint.size();
    memory.origin = 0x1000;
    const uint8_t length[4] = {5, 0, 0, 0};
    if (milestarling_memory_write(memory, 0x1008, length, sizeof length, 1) != MILESTARLING_DONE)
        return 1;
    milestarling_session session = milestarling_session();
    milestarling_vectors vectors = milestarling_vectors();
    milestarling_set_register(&session, 0, 0x1000, MILESTARLING_TAINT_NONE);
    milestarling_set_register(&session, MILESTARLING_SP, 0x1000 + bytes.size(), MILESTARLING_TAINT_NONE);
    session.pc = 0x8000;

    std::vector<milestarling_access> trace(words.size());
    std::vector<uint8_t> statuses(words.size());
    const milestarling_run_reply ran = milestarling_session_run(memory, &session, &vectors, words.data(),
        words.size(), trace.data(), trace.size(), statuses.data(), statuses.size());
    for (uint64_t i = 0; i < ran.steps; i++)
        std::printf("code %" PRIu64 ", address 0x%" PRIx64 "\n", trace[i].code, trace[i].address);
    std::printf("steps %" PRIu64 ", answer %" PRIu64 ", pc 0x%" PRIx64 "\n", ran.steps, ran.answer, session.pc);
    std::printf("x1 is %" PRIu64 ", taint %016" PRIx64 "; the byte at 48 is %d, taint %d\n", milestarling_value(&session, 1),
        milestarling_taint_of(&session, 1).bytes, bytes[48], taint[48]);
    if (ran.answer == MILESTARLING_TAINTED_ADDRESS)
        std::printf("refused: %s\n", text_of(words[ran.steps]).c_str());
    return 0;
}
