/*
 * The header by itself, in every version of C and C++ that it is for: tests/host.sh compiles this file as each. It uses
 * what the header defines, and writes the text of each answer as docs/ANSWERS.md has it in its second table.
 */
#include <stddef.h>
#include <stdio.h>
#include <string.h>

#include "milestarling.h"
#include "milestarling.h"

static int failed = 0;

static void hold(int holds, const char *what)
{
    if (!holds) {
        printf("doesn't hold: %s\n", what);
        failed = 1;
    }
}

/* The record as the library has it: a size or a place that differs doesn't compile. */
#define SESSION_AT(field, place) \
    typedef char session_##field##_at_##place[offsetof(struct milestarling_session, field) == place ? 1 : -1]
SESSION_AT(value, 0);
SESSION_AT(value_taint, 256);
SESSION_AT(pc, 512);
SESSION_AT(monitor_address, 520);
SESSION_AT(monitor_size, 528);
typedef char session_has_536_bytes[sizeof(struct milestarling_session) == 536 ? 1 : -1];
typedef char vectors_have_1024_bytes[sizeof(struct milestarling_vectors) == 1024 ? 1 : -1];
typedef char vector_register_has_32_bytes[sizeof(struct milestarling_vector_register) == 32 ? 1 : -1];
typedef char taint_has_8_bytes[sizeof(struct milestarling_taint) == 8 ? 1 : -1];
typedef char reply_has_32_bytes[sizeof(struct milestarling_step_reply) == 32 ? 1 : -1];
typedef char run_reply_has_568_bytes[sizeof(struct milestarling_run_reply) == 568 ? 1 : -1];
typedef char lister_has_5_bytes[sizeof(struct milestarling_lister) == 5 ? 1 : -1];
typedef char lister_reply_has_24_bytes[sizeof(struct milestarling_lister_reply) == 24 ? 1 : -1];
typedef char rescue_reply_has_24_bytes[sizeof(struct milestarling_rescue_reply) == 24 ? 1 : -1];
typedef char memory_has_48_bytes[sizeof(struct milestarling_memory) == 48 ? 1 : -1];
typedef char shared_memory_has_40_bytes[sizeof(struct milestarling_shared_memory) == 40 ? 1 : -1];
typedef char range_has_16_bytes[sizeof(struct milestarling_range) == 16 ? 1 : -1];
typedef char ranges_have_48_bytes[sizeof(struct milestarling_ranges) == 48 ? 1 : -1];
typedef char length_at_8[offsetof(struct milestarling_range, length) == 8 ? 1 : -1];
typedef char shared_at_0[offsetof(struct milestarling_ranges, shared) == 0 ? 1 : -1];
typedef char own_at_16[offsetof(struct milestarling_ranges, own) == 16 ? 1 : -1];
typedef char other_at_32[offsetof(struct milestarling_ranges, other) == 32 ? 1 : -1];
typedef char import_reply_has_16_bytes[sizeof(struct milestarling_import_reply) == 16 ? 1 : -1];
typedef char why_reply_has_16_bytes[sizeof(struct milestarling_why_reply) == 16 ? 1 : -1];
typedef char link_has_24_bytes[sizeof(struct milestarling_link) == 8 * MILESTARLING_LINK_NUMBERS ? 1 : -1];
typedef char access_has_16_bytes[sizeof(struct milestarling_access) == 8 * MILESTARLING_TRACE_NUMBERS ? 1 : -1];

static int same(const struct milestarling_session *one, const struct milestarling_session *other)
{
    return memcmp(one, other, sizeof *one) == 0;
}

/* Vector registers for words that leave them alone: each byte has a value and a taint of its own, and keeps both. */
static struct milestarling_vectors unused;

static void fill(struct milestarling_vectors *vectors)
{
    uint8_t pattern[sizeof *vectors];
    size_t i;
    for (i = 0; i < sizeof pattern; i++)
        pattern[i] = (uint8_t)(i % 251);
    memcpy(vectors, pattern, sizeof *vectors);
}

static int same_vectors(const struct milestarling_vectors *one, const struct milestarling_vectors *other)
{
    return memcmp(one, other, sizeof *one) == 0;
}

/* Sixteen bytes of 7 at 4096, of which none is tainted; there is a taint byte more than they need. */
static uint8_t bytes[16], taint[17];

static struct milestarling_memory small(void)
{
    struct milestarling_memory memory;
    memset(bytes, 7, sizeof bytes);
    memset(taint, 0, sizeof taint);
    memory.bytes = bytes;
    memory.length = sizeof bytes;
    memory.taint = taint;
    memory.taint_length = sizeof bytes;
    memory.origin = 4096;
    memory.readonly = 0;
    return memory;
}

static struct milestarling_memory none(void)
{
    struct milestarling_memory memory;
    memset(&memory, 0, sizeof memory);
    memory.origin = 4096;
    return memory;
}

/* The taint of each byte that a bit of this number is set for. */
static struct milestarling_taint of_bits(unsigned bits)
{
    struct milestarling_taint made = MILESTARLING_TAINT_NONE;
    uint32_t i;
    for (i = 0; i < 8; i++)
        if ((bits >> i) & 1)
            made = milestarling_taint_union(made, milestarling_taint_bytes(i, 1));
    return made;
}

static int same_taint(struct milestarling_taint one, struct milestarling_taint other)
{
    return one.bytes == other.bytes;
}

/* Each of the 256 taints: what is made of one, and of two, and of one with other bytes but 0 for its bytes. */
static void a_host_carries_taints(void)
{
    static const struct milestarling_taint kept[2] = {{MILESTARLING_TAINT_ALL_BYTES}, {0}};
    const uint64_t others[3] = {2, 128, 255};
    unsigned bits, other, i;
    hold(same_taint(kept[0], MILESTARLING_TAINT_ALL) && same_taint(kept[1], MILESTARLING_TAINT_NONE), "constants");
    hold(same_taint(milestarling_taint_bytes(0, 8), MILESTARLING_TAINT_ALL), "all bytes");
    hold(same_taint(milestarling_taint_bytes(2, 3), of_bits(0x1c)), "some bytes");
    hold(same_taint(milestarling_taint_bytes(6, UINT32_MAX), of_bits(0xc0)), "no bytes above 7");
    hold(milestarling_taint_bytes(8, 1).bytes == 0 && milestarling_taint_bytes(UINT32_MAX, UINT32_MAX).bytes == 0, "none");
    for (bits = 0; bits < 256; bits++) {
        const struct milestarling_taint normal = of_bits(bits);
        const unsigned lowest = bits & (0u - bits);
        hold(same_taint(milestarling_taint_carried(normal), of_bits(0x100 - lowest)), "carried");
        hold(same_taint(milestarling_taint_word(normal), of_bits(bits & 15)), "of a word");
        for (other = 0; other < 256; other++)
            hold(same_taint(milestarling_taint_union(normal, of_bits(other)), of_bits(bits | other)), "a union");
        for (i = 0; i < 3; i++) {
            struct milestarling_taint given = normal;
            given.bytes *= others[i];
            hold(same_taint(milestarling_taint_union(given, MILESTARLING_TAINT_NONE), normal), "0 or 1");
            hold(same_taint(milestarling_taint_carried(given), milestarling_taint_carried(normal)), "carried, 0 or 1");
            hold(same_taint(milestarling_taint_word(given), of_bits(bits & 15)), "of a word, 0 or 1");
        }
    }
}

/* Each single bit of a register's taint makes its value unknown, and so do any of a vector register's. */
static void a_known_value_is_not_tainted(void)
{
    struct milestarling_session session;
    struct milestarling_vectors vectors;
    struct milestarling_vector_register given;
    uint64_t value = 9, halves[2] = {9, 9};
    uint32_t bit;
    memset(&session, 0, sizeof session);
    memset(&vectors, 0, sizeof vectors);
    memset(&given, 0, sizeof given);
    given.low = 5;
    given.high = 6;
    for (bit = 0; bit < 64; bit++) {
        struct milestarling_taint one;
        one.bytes = UINT64_C(1) << bit;
        milestarling_set_register(&session, MILESTARLING_SP, 5, one);
        hold(!milestarling_known(&session, MILESTARLING_SP, &value) && value == 9, "a tainted value isn't known");
        given.taint_low = one;
        milestarling_vectors_set(&vectors, 31, given);
        hold(!milestarling_vectors_known(&vectors, 31, halves), "nor one whose low half is tainted");
        given.taint_low = MILESTARLING_TAINT_NONE;
        given.taint_high = one;
        milestarling_vectors_set(&vectors, 31, given);
        hold(!milestarling_vectors_known(&vectors, 31, halves) && halves[0] == 9 && halves[1] == 9, "nor its high half");
        given.taint_high = MILESTARLING_TAINT_NONE;
    }
    hold(!milestarling_known(&session, 32, &value) && value == 9, "nor that of register 32");
    hold(!milestarling_vectors_known(&vectors, 32, halves) && halves[0] == 9, "nor that of vector register 32");
    milestarling_set_register(&session, MILESTARLING_SP, 5, MILESTARLING_TAINT_NONE);
    hold(milestarling_known(&session, MILESTARLING_SP, &value) && value == 5, "one that isn't tainted is");
    milestarling_vectors_set(&vectors, 31, given);
    hold(milestarling_vectors_known(&vectors, 31, halves) && halves[0] == 5 && halves[1] == 6, "and of a vector register");
}

static void a_run_goes_on_from_a_session(void)
{
    struct milestarling_memory memory = small();
    struct milestarling_session session, before;
    struct milestarling_access trace[2];
    struct milestarling_run_reply reply;
    uint8_t statuses[2] = {9, 9};
    const uint32_t words[2] = {0xf9400420, 0xf9400002}; /* ldr x0, [x1, #8]; ldr x2, [x0] */
    /* every bit pattern is a record */
    memset(&session, 0xff, sizeof session);
    session.pc = 0;
    taint[9] = 255;
    milestarling_set_register(&session, 1, 4096, MILESTARLING_TAINT_NONE);

    before = session;
    reply = milestarling_session_run(memory, &session, &unused, words, 2, trace, 1, statuses, 2);
    hold(reply.answer == MILESTARLING_NO_ROOM && reply.steps == 0, "a short trace");
    reply = milestarling_session_run(memory, &session, &unused, words, 2, trace, 2, statuses, 1);
    hold(reply.answer == MILESTARLING_NO_ROOM && reply.steps == 0, "a short list of statuses");
    hold(same(&session, &before) && same(&reply.session, &before) && statuses[0] == 9, "and nothing is changed");

    reply = milestarling_session_run(memory, &session, &unused, words, 2, trace, 2, statuses, 2);
    hold(reply.answer == MILESTARLING_TAINTED_ADDRESS && reply.steps == 1 && reply.code == 0, "a run");
    hold(trace[0].code == 8 && trace[0].address == 4104 && statuses[0] == 0 && statuses[1] == 9, "its trace");
    before.value[0] = 0x0707070707070707;
    before.value_taint[0] = milestarling_taint_bytes(1, 1);
    before.pc = MILESTARLING_WORD_BYTES;
    hold(same(&session, &before) && same(&reply.session, &before), "its session");
    hold(milestarling_value(&session, 0) == 0x0707070707070707 && milestarling_value(&session, 32) == 0, "values");
    hold(milestarling_tainted(&session, 0) && !milestarling_tainted(&session, 1), "whether a byte is tainted");
    hold(same_taint(milestarling_taint_of(&session, 0), milestarling_taint_bytes(1, 1)), "which");
    hold(same_taint(milestarling_taint_of(&session, 2), MILESTARLING_TAINT_ALL), "0 or 1 for any byte");
    hold(!milestarling_tainted(&session, 32) && milestarling_taint_of(&session, 32).bytes == 0, "no register 32");

    reply = milestarling_session_run(memory, &session, &unused, NULL, 0, NULL, 0, NULL, 0);
    hold(reply.answer == MILESTARLING_DONE && reply.steps == 0 && same(&session, &before), "no words");
    reply = milestarling_session_run(none(), &session, &unused, words, 1, trace, 1, statuses, 1);
    hold(reply.answer == MILESTARLING_OUT_OF_WINDOW && reply.address == 4104 && same(&session, &before), "no memory");
    session.pc = 2;
    reply = milestarling_session_run(memory, &session, &unused, words, 1, trace, 1, statuses, 1);
    hold(reply.answer == MILESTARLING_BAD_WINDOW && reply.session.pc == 2, "a pc that isn't a multiple of 4");
}

/* A number of taint bytes that isn't that of the bytes is answer 1, for a step and for a run, and nothing is changed. */
static void refuses(struct milestarling_memory memory, const char *what)
{
    struct milestarling_session session, before;
    struct milestarling_step_reply reply;
    struct milestarling_run_reply ran;
    struct milestarling_access trace[1] = {{9, 9}};
    uint8_t statuses[1] = {9};
    const uint32_t word = 0xf9000420; /* str x0, [x1, #8] */
    size_t i;
    int kept = 1;
    memset(&session, 0, sizeof session);
    milestarling_set_register(&session, 0, 5, MILESTARLING_TAINT_ALL);
    milestarling_set_register(&session, 1, 4096, MILESTARLING_TAINT_NONE);
    before = session;
    reply = milestarling_session_step(memory, &session, &unused, word);
    hold(reply.answer == MILESTARLING_BAD_WINDOW && reply.code == 0 && reply.address == 0 && reply.status == 0, what);
    ran = milestarling_session_run(memory, &session, &unused, &word, 1, trace, 1, statuses, 1);
    hold(ran.answer == MILESTARLING_BAD_WINDOW && ran.steps == 0 && same(&ran.session, &before), what);
    for (i = 0; i < sizeof taint; i++)
        kept = kept && taint[i] == 0 && (i == sizeof bytes || bytes[i] == 7);
    hold(kept && same(&session, &before) && trace[0].code == 9 && trace[0].address == 9 && statuses[0] == 9, what);
}

static void taint_bytes_have_a_length_of_their_own(void)
{
    struct milestarling_memory memory = small();
    struct milestarling_session session;
    struct milestarling_step_reply reply;
    memory.taint_length = sizeof bytes - 1;
    refuses(memory, "a taint byte too few");
    memory.taint_length = sizeof taint;
    refuses(memory, "a taint byte too many");
    memory.taint_length = 0;
    refuses(memory, "a length of the taint bytes that was forgotten");
    memory.taint = NULL;
    refuses(memory, "no taint bytes");
    memory = small();
    memory.bytes = NULL;
    memory.length = 0;
    refuses(memory, "taint bytes of no bytes");
    memset(&session, 0, sizeof session);
    reply = milestarling_session_step(none(), &session, &unused, 0xf9800020); /* prfm pldl1keep, [x1] */
    hold(reply.answer == MILESTARLING_DONE && session.pc == 4, "neither bytes nor taint bytes");
}

/* So many bytes of 1 are written at an address: the answer, and that nothing else is changed, or with a refusal nothing at all. */
static uint64_t written(struct milestarling_memory memory, uint64_t address, size_t length, int tainted)
{
    const uint8_t ones[17] = {1, 1, 1, 1, 1, 1, 1, 1, 1, 1, 1, 1, 1, 1, 1, 1, 1};
    uint64_t answer;
    size_t i;
    int kept = 1;
    memset(taint, 128, sizeof taint);
    answer = milestarling_memory_write(memory, address, ones, length, tainted);
    for (i = 0; i < sizeof bytes; i++) {
        const int inside = answer == MILESTARLING_DONE && memory.origin + i >= address && memory.origin + i - address < length;
        kept = kept && bytes[i] == (inside ? 1 : 7) && taint[i] == (inside ? (tainted != 0) : 128);
    }
    hold(kept && taint[sizeof bytes] == 128, "what is written, and nothing else");
    memset(bytes, 7, sizeof bytes);
    return answer;
}

static void a_host_reads_and_writes_memory(void)
{
    struct milestarling_memory memory = small();
    uint8_t read[4] = {9, 9, 9, 9}, read_taint[4] = {9, 9, 9, 9};
    const uint8_t read_before[4] = {9, 9, 9, 9}, read_bytes[4] = {7, 7, 8, 9}, read_taints[4] = {0, 0, 1, 9};
    memory.readonly = sizeof bytes;
    hold(written(memory, 4096, 16, 1) == MILESTARLING_DONE && written(memory, 4096, 16, 0) == MILESTARLING_DONE, "all of memory");
    hold(written(memory, 4100, 3, 256) == MILESTARLING_DONE && written(memory, 4111, 1, -1) == MILESTARLING_DONE, "some of it");
    hold(written(memory, 4096, 17, 1) == MILESTARLING_OUT_OF_WINDOW, "a byte more");
    hold(written(memory, 4111, 2, 1) == MILESTARLING_OUT_OF_WINDOW, "across its end");
    hold(written(memory, 4112, 1, 1) == MILESTARLING_OUT_OF_WINDOW, "behind it");
    hold(written(memory, 4095, 1, 1) == MILESTARLING_OUT_OF_WINDOW, "before it");
    hold(written(memory, 4095, 17, 1) == MILESTARLING_OUT_OF_WINDOW, "from before it on");
    hold(written(memory, UINT64_MAX, 2, 1) == MILESTARLING_OUT_OF_WINDOW, "at the end of the address space");
    hold(written(memory, 0, 0, 1) == MILESTARLING_DONE, "no bytes");
    memory.taint_length = sizeof taint;
    hold(written(memory, 4096, 1, 1) == MILESTARLING_BAD_WINDOW, "a taint byte more");
    hold(written(memory, 0, 0, 1) == MILESTARLING_BAD_WINDOW, "and no bytes");
    memory.taint_length = sizeof bytes;
    memory.origin = UINT64_MAX - 15;
    hold(written(memory, UINT64_MAX, 1, 1) == MILESTARLING_DONE, "the last byte of the address space");
    hold(written(memory, UINT64_MAX, 2, 1) == MILESTARLING_OUT_OF_WINDOW, "and one more");
    hold(milestarling_memory_write(none(), 4096, NULL, 0, 1) == MILESTARLING_DONE, "no memory");

    memory = small();
    bytes[15] = 8;
    taint[15] = 255;
    hold(milestarling_memory_read(memory, 4110, read, read_taint, 3) == MILESTARLING_OUT_OF_WINDOW, "a read across the end");
    memory.taint_length = 15;
    hold(milestarling_memory_read(memory, 4096, read, read_taint, 3) == MILESTARLING_BAD_WINDOW, "a taint byte too few");
    hold(memcmp(read, read_before, 4) == 0 && memcmp(read_taint, read_before, 4) == 0, "a refused read changes nothing");
    memory.taint_length = 16;
    hold(milestarling_memory_read(memory, 4109, read, read_taint, 3) == MILESTARLING_DONE, "a read");
    hold(memcmp(read, read_bytes, 4) == 0 && memcmp(read_taint, read_taints, 4) == 0, "bytes, and 0 or 1 for their taints");
    hold(milestarling_memory_read(none(), 0, NULL, NULL, 0) == MILESTARLING_DONE, "a read of nothing");
}

/* Three regions: two that touch each other, of which the first is read-only, and one that lies over both, with too few taint bytes. */
static void a_step_finds_its_region(void)
{
    struct milestarling_memory regions[3];
    struct milestarling_session session, before;
    struct milestarling_step_reply reply;
    const uint32_t load = 0xf9400020, store = 0xf9000020; /* ldr x0, [x1]; str x0, [x1] */
    regions[0] = regions[1] = regions[2] = small();
    regions[0].length = regions[0].taint_length = regions[0].readonly = 8;
    regions[1].origin = 4104;
    regions[1].bytes = bytes + 8;
    regions[1].taint = taint + 8;
    regions[1].length = regions[1].taint_length = 8;
    regions[2].origin = 4090;
    regions[2].taint_length = 15;
    taint[3] = 1;
    bytes[8] = 3;
    memset(&session, 0, sizeof session);
    milestarling_set_register(&session, 1, 4096, MILESTARLING_TAINT_NONE);
    hold(milestarling_session_step_in(regions, 3, &session, &unused, load).answer == MILESTARLING_DONE, "the first region");
    hold(same_taint(milestarling_taint_of(&session, 0), milestarling_taint_bytes(3, 1)) && session.pc == 4, "its taints");
    before = session;
    reply = milestarling_session_step_in(regions, 3, &session, &unused, store);
    hold(reply.answer == MILESTARLING_READ_ONLY && reply.address == 4096 && same(&session, &before), "is read-only");
    milestarling_set_register(&session, 1, 4104, MILESTARLING_TAINT_NONE);
    hold(milestarling_session_step_in(regions, 3, &session, &unused, store).answer == MILESTARLING_DONE && taint[11] == 1, "the second");
    milestarling_set_register(&session, 1, 4097, MILESTARLING_TAINT_NONE);
    before = session;
    reply = milestarling_session_step_in(regions, 3, &session, &unused, load);
    hold(reply.answer == MILESTARLING_OUT_OF_WINDOW && reply.address == 4097 && same(&session, &before), "both at once");
    milestarling_set_register(&session, 1, 4090, MILESTARLING_TAINT_NONE);
    reply = milestarling_session_step_in(regions, 3, &session, &unused, load);
    hold(reply.answer == MILESTARLING_BAD_WINDOW, "what is wrong with the third");
    hold(milestarling_session_step_in(regions, 2, &session, &unused, load).answer == MILESTARLING_OUT_OF_WINDOW, "none");
    milestarling_set_register(&session, 1, 4112, MILESTARLING_TAINT_NONE);
    before = session;
    reply = milestarling_session_step_in(regions, 2, &session, &unused, load);
    hold(reply.answer == MILESTARLING_OUT_OF_WINDOW && reply.address == 4112 && same(&session, &before), "right behind the last");
    reply = milestarling_session_step_in(NULL, 0, &session, &unused, load);
    hold(reply.answer == MILESTARLING_OUT_OF_WINDOW && same(&session, &before), "no regions");
    reply = milestarling_session_step_in(regions, 3, &session, &unused, 0);
    hold(reply.answer == MILESTARLING_NOT_IN_SET && same(&session, &before), "another refusal");
    reply = milestarling_session_step_in(NULL, 0, &session, &unused, 0xf9800020); /* prfm pldl1keep, [x1] */
    hold(reply.answer == MILESTARLING_DONE && session.pc == before.pc + 4, "a prefetch needs none, and is done once");
}

static void a_host_opens_the_monitor(void)
{
    struct milestarling_memory memory = small();
    struct milestarling_session session;
    struct milestarling_access trace[3];
    struct milestarling_run_reply ran;
    struct milestarling_step_reply reply;
    uint8_t statuses[3];
    const uint32_t load = 0x885ffc01, store = 0x88037c02; /* ldaxr w1, [x0]; stxr w3, w2, [x0] */
    uint32_t words[3];
    memset(&session, 0, sizeof session);
    milestarling_set_register(&session, 0, 4096, MILESTARLING_TAINT_NONE);
    milestarling_set_register(&session, 3, 5, MILESTARLING_TAINT_ALL);
    words[0] = load;
    words[1] = words[2] = store;

    ran = milestarling_session_run(memory, &session, &unused, words, 1, trace, 1, statuses, 1);
    hold(ran.answer == MILESTARLING_DONE && session.monitor_address == 4096 && session.monitor_size == 4, "arming");
    ran = milestarling_session_run(memory, &session, &unused, words, 3, trace, 3, statuses, 3);
    hold(ran.answer == MILESTARLING_DONE && ran.steps == 3, "a store-exclusive that fails isn't refused");
    hold(statuses[0] == 0 && statuses[1] == 0 && statuses[2] == 1, "statuses");
    hold(trace[1].code == MILESTARLING_STORE_CODE + 4 && memcmp(&trace[1], &trace[2], sizeof trace[1]) == 0, "shown alike");
    hold(session.value[3] == 1 && !milestarling_tainted(&session, 3) && session.monitor_size == 0, "status and monitor");

    bytes[0] = 9;
    reply = milestarling_session_step(memory, &session, &unused, load);
    hold(reply.answer == MILESTARLING_DONE && session.monitor_size == 4, "arming by a step");
    milestarling_open(&session);
    hold(session.monitor_address == 0 && session.monitor_size == 0, "opening");
    reply = milestarling_session_step(memory, &session, &unused, store);
    hold(reply.answer == MILESTARLING_DONE && reply.status == 1 && bytes[0] == 9, "a store that fails");
}

/* The bytes of the monitor that are left, of a session that watches 4 bytes at 4104 and observes a step by a reply. */
static uint64_t watched(uint64_t code, uint64_t address, uint64_t status)
{
    struct milestarling_session session, before;
    struct milestarling_step_reply reply;
    memset(&session, 0xff, sizeof session);
    session.monitor_address = 4104;
    session.monitor_size = 4;
    before = session;
    reply.answer = MILESTARLING_DONE;
    reply.code = code;
    reply.address = address;
    reply.status = status;
    milestarling_observe_step(&session, reply);
    if (session.monitor_size == 0)
        before.monitor_address = before.monitor_size = 0;
    hold(same(&session, &before), "observing touches the monitor alone");
    return session.monitor_size;
}

static void a_session_observes_a_step_of_anothers(void)
{
    hold(watched(68, 4104, 0) == 0 && watched(65, 4107, 0) == 0 && watched(72, 4097, 0) == 0, "a store to what is watched");
    hold(watched(80, 4103, 0) == 0 && watched(UINT64_MAX, 0, 0) == 0, "a store around it");
    hold(watched(72, 4096, 0) == 4 && watched(65, 4108, 0) == 4 && watched(65, 4103, 0) == 4, "a store beside it");
    hold(watched(64, 4104, 0) == 4 && watched(72, UINT64_MAX, 0) == 4, "a store of no bytes, and one at the end");
    hold(watched(68, 4104, 1) == 4 && watched(68, 4104, 256) == 4, "a store-exclusive that failed");
    hold(watched(4, 4104, 0) == 4 && watched(63, 4104, 0) == 4 && watched(0, 4104, 0) == 4, "a load, and a refusal");
}

static void a_session_observes_a_write_of_the_hosts(void)
{
    struct milestarling_session session;
    memset(&session, 0, sizeof session);
    session.monitor_address = 4104;
    session.monitor_size = 4;
    milestarling_observe_write(&session, 4100, 4);
    milestarling_observe_write(&session, 4108, 100);
    milestarling_observe_write(&session, 4104, 0);
    hold(session.monitor_size == 4, "a write beside what is watched");
    milestarling_observe_write(&session, 4000, 105);
    hold(session.monitor_address == 0 && session.monitor_size == 0, "a write to its first byte");
}

static void a_session_observes_a_run_of_anothers(void)
{
    struct milestarling_session ours, before;
    struct milestarling_access trace[3];
    uint8_t statuses[3] = {0, 0, 1};
    memset(&ours, 0, sizeof ours);
    ours.monitor_address = 4104;
    ours.monitor_size = 8;
    before = ours;
    trace[0].code = 8;
    trace[1].code = trace[2].code = MILESTARLING_STORE_CODE + 4;
    trace[0].address = trace[2].address = 4108;
    trace[1].address = 4112;
    milestarling_observe_run(&ours, trace, statuses, 3);
    milestarling_observe_run(&ours, NULL, NULL, 0);
    hold(same(&ours, &before), "a run that stores elsewhere, or fails to");
    statuses[2] = 0;
    milestarling_observe_run(&ours, trace, statuses, 2);
    hold(same(&ours, &before), "a store behind the steps done");
    milestarling_observe_run(&ours, trace, statuses, 3);
    hold(ours.monitor_address == 0 && ours.monitor_size == 0, "a store to what is watched, by a run");
    milestarling_observe_run(&ours, NULL, NULL, 3);
    hold(ours.monitor_size == 0, "an open monitor looks at no trace");
}

static void a_session_is_changed_in_place(void)
{
    struct milestarling_memory memory = small();
    struct milestarling_session session, before;
    struct milestarling_step_reply reply;
    struct milestarling_taint given;
    memset(&session, 0xff, sizeof session);
    session.pc = 0;
    taint[9] = 255;

    before = session;
    milestarling_set_register(&session, 1, 4096, MILESTARLING_TAINT_NONE);
    hold(session.value[1] == 4096 && session.value_taint[1].bytes == 0, "a register that is set");
    before.value[1] = 4096;
    before.value_taint[1] = MILESTARLING_TAINT_NONE;
    hold(same(&session, &before), "no other register, pc or monitor");
    given.bytes = UINT64_C(0xff80020100000000);
    milestarling_set_register(&session, MILESTARLING_SP, 5, given);
    hold(session.value[31] == 5 && same_taint(session.value_taint[31], given), "sp, with its taint as it is given");
    hold(same_taint(milestarling_taint_of(&session, MILESTARLING_SP), milestarling_taint_bytes(4, 4)), "the same as 0 or 1");
    before = session;
    milestarling_set_register(&session, 32, 6, MILESTARLING_TAINT_ALL);
    hold(same(&session, &before), "no register 32 to be set");

    reply = milestarling_session_step(memory, &session, &unused, 0xf9400420); /* ldr x0, [x1, #8] */
    hold(reply.answer == MILESTARLING_DONE && reply.code == 8 && reply.address == 4104 && reply.status == 0, "a step");
    before.value[0] = 0x0707070707070707;
    before.value_taint[0] = milestarling_taint_bytes(1, 1);
    before.pc = MILESTARLING_WORD_BYTES;
    hold(same(&session, &before), "what it loads, its taint and pc");

    reply = milestarling_session_step(memory, &session, &unused, 0xf9400001); /* ldr x1, [x0] */
    hold(reply.answer == MILESTARLING_TAINTED_ADDRESS && reply.code == 0 && reply.address == 0, "a tainted address");
    reply = milestarling_session_step(none(), &session, &unused, 0xf9400420);
    hold(reply.answer == MILESTARLING_OUT_OF_WINDOW && reply.code == 0 && reply.address == 4104, "no memory");
    hold(same(&session, &before), "a refusal changes nothing");
}

/* Of a doubleword that is spilled, one byte is tainted: the one beside it is an index when it is reloaded, and that isn't. */
static void bytes_keep_their_taints(void)
{
    struct milestarling_memory memory = small();
    struct milestarling_session session;
    memset(&session, 0, sizeof session);
    milestarling_set_register(&session, 0, 4096, MILESTARLING_TAINT_NONE);
    milestarling_set_register(&session, 1, 0x0503, milestarling_taint_bytes(0, 1));
    hold(milestarling_session_step(memory, &session, &unused, 0xf9000001).answer == MILESTARLING_DONE, "str x1, [x0]");
    hold(taint[0] == 1 && taint[1] == 0 && taint[7] == 0 && bytes[0] == 3 && bytes[1] == 5, "what is stored");
    hold(milestarling_session_step(memory, &session, &unused, 0x39c00002).answer == MILESTARLING_DONE, "ldrsb w2, [x0]");
    hold(same_taint(milestarling_taint_of(&session, 2), milestarling_taint_bytes(0, 4)), "sign copies of 32 bits");
    hold(milestarling_session_step(memory, &session, &unused, 0x38626804).answer == MILESTARLING_TAINTED_ADDRESS, "ldrb w4, [x0, x2]");
    hold(milestarling_session_step(memory, &session, &unused, 0x39400402).answer == MILESTARLING_DONE, "ldrb w2, [x0, #1]");
    hold(!milestarling_tainted(&session, 2), "a byte beside a tainted one");
    hold(milestarling_session_step(memory, &session, &unused, 0x38626804).address == 4101, "and an index");
    milestarling_set_register(&session, 2, UINT64_C(0x500000005), milestarling_taint_bytes(4, 1));
    hold(milestarling_session_step(memory, &session, &unused, 0x38626804).answer == MILESTARLING_TAINTED_ADDRESS, "byte 4, for lsl");
    hold(milestarling_session_step(memory, &session, &unused, 0x38624804).address == 4101, "and not for uxtw");
}

/* A vector register with a taint of each byte that a bit of this number is set for, of sixteen. */
static struct milestarling_vector_register vector(uint64_t low, uint64_t high, unsigned bits)
{
    struct milestarling_vector_register made;
    made.low = low;
    made.high = high;
    made.taint_low = of_bits(bits & 255);
    made.taint_high = of_bits(bits >> 8);
    return made;
}

static int same_vector(struct milestarling_vector_register one, struct milestarling_vector_register other)
{
    return one.low == other.low && one.high == other.high && same_taint(one.taint_low, other.taint_low)
        && same_taint(one.taint_high, other.taint_high);
}

static void vector_registers_are_read_and_set(void)
{
    struct milestarling_vectors vectors, before;
    struct milestarling_vector_register given = vector(5, 6, 0x8001);
    const struct milestarling_vectors *const kept = &vectors;
    uint32_t i;
    fill(&vectors);
    before = vectors;
    for (i = 0; i < MILESTARLING_VECTORS; i++) {
        const struct milestarling_vector_register found = milestarling_vector(i, kept->value, kept->taint);
        hold(found.low == before.value[i][0] && found.high == before.value[i][1], "a vector register's halves");
        hold(same_taint(found.taint_low, before.taint[i][0]) && same_taint(found.taint_high, before.taint[i][1]), "as they stand");
        hold(milestarling_vectors_get(kept, i).taint_high.bytes <= MILESTARLING_TAINT_ALL_BYTES, "0 or 1");
        hold(milestarling_vectors_tainted(kept, i), "whether a byte is tainted");
    }
    given.taint_high.bytes *= 128;
    milestarling_vectors_set(&vectors, 31, given);
    before.value[31][0] = 5;
    before.value[31][1] = 6;
    before.taint[31][0] = given.taint_low;
    before.taint[31][1] = given.taint_high;
    hold(same_vectors(&vectors, &before), "v31 is set, its taint as it is given, and no other");
    hold(same_vector(milestarling_vectors_get(kept, 31), vector(5, 6, 0x8001)), "the same as 0 or 1");
    milestarling_vectors_set(&vectors, 32, given);
    milestarling_vectors_set(&vectors, UINT32_MAX, given);
    hold(same_vectors(&vectors, &before), "no vector register 32 to be set");
    hold(same_vector(milestarling_vectors_get(kept, 32), vector(0, 0, 0)), "nor to be read");
    hold(same_vector(milestarling_vector(UINT32_MAX, kept->value, kept->taint), vector(0, 0, 0)), "nor one above it");
    hold(!milestarling_vectors_tainted(kept, 32), "nor tainted");
    milestarling_vectors_set(&vectors, 0, vector(1, 2, 0x100));
    hold(milestarling_vectors_tainted(kept, 0), "the taint of the high half alone");
    milestarling_vectors_set(&vectors, 0, vector(1, 2, 0));
    hold(!milestarling_vectors_tainted(kept, 0), "no taint");
}

/* A load fills so many bytes from the lowest on and clears all others, with their taints; the words load v31 by [x1, #0]. */
static void a_load_clears_what_it_does_not_fill(void)
{
    static const uint32_t words[5] = {0x3d40003f, 0x7d40003f, 0xbd40003f, 0xfd40003f, 0x3dc0003f}; /* ldr b, h, s, d, q31, [x1] */
    static const uint64_t halves[5][2] = {{1, 0}, {0x0201, 0}, {0x04030201, 0}, {UINT64_C(0x0807060504030201), 0},
        {UINT64_C(0x0807060504030201), UINT64_C(0x100f0e0d0c0b0a09)}};
    static const unsigned bits[5] = {1, 1, 1, 1, 0x8001};
    unsigned i;
    for (i = 0; i < 5; i++) {
        struct milestarling_memory memory = small();
        struct milestarling_session session;
        struct milestarling_vectors vectors, before;
        struct milestarling_step_reply reply;
        size_t place;
        memset(&session, 0, sizeof session);
        milestarling_set_register(&session, 1, 4096, MILESTARLING_TAINT_NONE);
        for (place = 0; place < sizeof bytes; place++)
            bytes[place] = (uint8_t)(place + 1);
        fill(&vectors);
        before = vectors;
        taint[0] = 128;
        taint[15] = 1;
        reply = milestarling_session_step(memory, &session, &vectors, words[i]);
        hold(reply.answer == MILESTARLING_DONE && reply.code == (uint64_t)1 << i && reply.address == 4096, "a vector load");
        hold(same_vector(milestarling_vectors_get(&vectors, 31), vector(halves[i][0], halves[i][1], bits[i])), "what it fills");
        milestarling_vectors_set(&before, 31, vector(halves[i][0], halves[i][1], bits[i]));
        hold(same_vectors(&vectors, &before), "and no other");
        hold(session.value[31] == 0 && session.pc == 4, "nor sp");
    }
}

/* A string's sixteen bytes are copied by a vector register, with their taints, and a general register finds them there. */
static void a_vector_register_copies_taints(void)
{
    struct milestarling_memory memory = small();
    struct milestarling_session session;
    struct milestarling_vectors vectors, before;
    struct milestarling_access trace[2];
    struct milestarling_run_reply ran;
    uint8_t statuses[2];
    const uint32_t words[2] = {0x3dc00020, 0x3c810420}; /* ldr q0, [x1]; str q0, [x1], #16 */
    size_t i;
    memset(&session, 0, sizeof session);
    memset(&vectors, 0, sizeof vectors);
    milestarling_set_register(&session, 1, 4096, MILESTARLING_TAINT_NONE);
    for (i = 0; i < sizeof bytes; i++)
        bytes[i] = (uint8_t)i;
    taint[3] = taint[12] = 255;
    ran = milestarling_session_run(memory, &session, &vectors, words, 2, trace, 2, statuses, 2);
    hold(ran.answer == MILESTARLING_DONE && trace[0].code == 16 && trace[1].code == MILESTARLING_STORE_CODE + 16, "a copy");
    hold(session.value[1] == 4112 && !milestarling_tainted(&session, 1), "its writeback");
    hold(same_vector(milestarling_vectors_get(&vectors, 0),
        vector(UINT64_C(0x0706050403020100), UINT64_C(0x0f0e0d0c0b0a0908), 0x1008)), "the low half first");
    hold(taint[3] == 1 && taint[12] == 1 && taint[4] == 0 && bytes[15] == 15, "0 or 1 behind it");

    /* ldr q1, [x1], #16: of one number with its base, and done; ldp q1, q1, [x1]: loads one register twice */
    milestarling_set_register(&session, 1, 4096, MILESTARLING_TAINT_NONE);
    hold(milestarling_session_step(memory, &session, &vectors, 0x3cc10421).answer == MILESTARLING_DONE, "no collision");
    hold(session.value[1] == 4112, "and a writeback");
    before = vectors;
    hold(milestarling_session_step(memory, &session, &vectors, 0xad400421).answer == MILESTARLING_UNPREDICTABLE, "a pair");
    hold(milestarling_session_step(memory, &session, &vectors, 0x3dc00021).answer == MILESTARLING_OUT_OF_WINDOW, "no memory");
    milestarling_set_register(&session, 1, 4096, milestarling_taint_bytes(7, 1));
    hold(milestarling_session_step(memory, &session, &vectors, 0x3dc00021).answer == MILESTARLING_TAINTED_ADDRESS, "a base");
    ran = milestarling_session_run(memory, &session, &vectors, words, 2, trace, 1, statuses, 2);
    hold(ran.answer == MILESTARLING_NO_ROOM && same_vectors(&vectors, &before), "a refusal changes no vector register");
}

static int same_link(struct milestarling_link link, uint64_t kind, uint64_t number, uint64_t step)
{
    return link.kind == kind && link.number == number && link.step == step;
}

/* Of no run at all, and with neither memory nor room: what is tainted is so from the start. */
static void the_start_is_explained(void)
{
    struct milestarling_session session;
    struct milestarling_start start;
    struct milestarling_history history;
    struct milestarling_why_reply why;
    struct milestarling_link link = {9, 9, 9};
    memset(&session, 0, sizeof session);
    memset(&start, 0, sizeof start);
    memset(&history, 0, sizeof history);
    milestarling_set_register(&session, MILESTARLING_SP, 0, milestarling_taint_bytes(7, 1));
    start.session = &session;
    start.vectors = &unused;
    why = milestarling_session_why(start, history, 0, milestarling_place_register(MILESTARLING_SP, 6), NULL, 0);
    hold(why.answer == MILESTARLING_DONE && why.links == 0, "a byte that isn't tainted");
    why = milestarling_session_why(start, history, 0, milestarling_place_register(MILESTARLING_SP, 7), NULL, 0);
    hold(why.answer == MILESTARLING_NO_ROOM && why.links == 0, "one that is, and no room");
    why = milestarling_session_why(start, history, 0, milestarling_place_register(MILESTARLING_SP, 7), &link, 1);
    hold(why.answer == MILESTARLING_DONE && why.links == 1, "and room");
    hold(same_link(link, MILESTARLING_PLACE_REGISTER, 16 * 31 + 7, 0), "sp");
    hold(milestarling_link_register(link) == MILESTARLING_SP && milestarling_link_byte(link) == 7, "its number and its byte");
    why = milestarling_session_why(start, history, 0, milestarling_place_vector(31, 15), &link, 1);
    hold(why.answer == MILESTARLING_DONE && why.links == 1, "a vector register");
    hold(same_link(link, MILESTARLING_PLACE_VECTOR, 16 * 31 + 15, 0), "v31");
    hold(milestarling_link_register(link) == 31 && milestarling_link_byte(link) == 15, "its number and its byte");
    why = milestarling_session_why(start, history, 0, milestarling_place_memory(0), &link, 1);
    hold(why.answer == MILESTARLING_OUT_OF_WINDOW && why.links == 0, "no memory");
    why = milestarling_session_why(start, history, 1, milestarling_place_vector(31, 15), &link, 1);
    hold(why.answer == MILESTARLING_AFTER_END && why.links == 0, "no step");
}

/* A tainted byte is copied, and taken for an index, which is refused: by the structs, and by the numbers themselves. */
static void a_copy_is_explained(void)
{
    struct milestarling_memory memory = small();
    struct milestarling_session session, before;
    struct milestarling_access trace[3];
    struct milestarling_link links[4];
    struct milestarling_why_reply why;
    uint8_t statuses[3], taint_before[sizeof bytes];
    const uint32_t words[3] = {0x39400c02, 0x39002402, 0x38626801}; /* ldrb w2, [x0, #3]; strb w2, [x0, #9]; ldrb w1, [x0, x2] */
    const struct milestarling_start start = {&before, &unused, taint_before, sizeof taint_before, memory.origin, 0, memory.length};
    struct milestarling_history history = {words, 3, trace, 3, statuses, 3, 0};
    memset(&session, 0, sizeof session);
    memset(links, 0xff, sizeof links);
    milestarling_set_register(&session, 0, 4096, MILESTARLING_TAINT_NONE);
    taint[3] = 255;
    before = session;
    memcpy(taint_before, taint, sizeof taint_before);
    history.steps = milestarling_session_run(memory, &session, &unused, words, 3, trace, 3, statuses, 3).steps;
    hold(history.steps == 2 && milestarling_tainted(&session, 2) && taint[9] == 1, "an index that is tainted");

    why = milestarling_session_why(start, history, 2, milestarling_place_memory(4105), links, 2);
    hold(why.answer == MILESTARLING_NO_ROOM && why.links == 0 && links[0].kind == UINT64_MAX, "no room for three links");
    why = milestarling_session_why(start, history, 2, milestarling_place_memory(4105), links, 4);
    hold(why.answer == MILESTARLING_DONE && why.links == 3, "a copy's links");
    hold(same_link(links[0], MILESTARLING_PLACE_MEMORY, 4105, 2), "it was stored");
    hold(same_link(links[1], MILESTARLING_PLACE_REGISTER, 16 * 2, 1), "of a register that was loaded");
    hold(same_link(links[2], MILESTARLING_PLACE_MEMORY, 4099, 0), "from a byte tainted at the start");
    hold(same_link(links[3], UINT64_MAX, UINT64_MAX, UINT64_MAX), "and the rest is kept");
    hold(milestarling_link_register(links[2]) == 0 && milestarling_link_byte(links[2]) == 0, "a byte of memory has no register");
    why = milestarling_why(words, 3, &trace->code, 6, statuses, 3, 2, before.value_taint, start.vectors->taint, taint_before, 16, 4096,
        0, 16, 2, MILESTARLING_PLACE_REGISTER, 2, 0, &links->kind, 6);
    hold(why.answer == MILESTARLING_DONE && why.links == 2, "by the numbers themselves");
    hold(same_link(links[0], MILESTARLING_PLACE_REGISTER, 16 * 2, 1) && same_link(links[1], MILESTARLING_PLACE_MEMORY, 4099, 0)
        && same_link(links[2], MILESTARLING_PLACE_MEMORY, 4099, 0), "and no more");
}

/* Ranges cross by value, behind the record: each of the six numbers arrives where it belongs. Eight bytes are shared, the plugin
   has four, and the other has the last four. */
static void plugins_take_turns(void)
{
    const struct milestarling_memory small_memory = small();
    const struct milestarling_shared_memory memory = {bytes, sizeof bytes, taint, sizeof bytes, small_memory.origin};
    const struct milestarling_ranges ranges = {{4096, 8}, {4104, 4}, {4108, 4}};
    struct milestarling_session session, before;
    struct milestarling_access trace[3];
    struct milestarling_run_reply ran;
    uint8_t statuses[3];
    const uint32_t words[3] = {0xf9400001, 0xb9000801, 0xb9400c01}; /* ldr x1, [x0]; str w1, [x0, #8]; ldr w1, [x0, #12] */
    memset(&session, 0, sizeof session);
    milestarling_set_register(&session, 0, 4096, MILESTARLING_TAINT_NONE);
    taint[1] = 255;
    before = session;
    ran = milestarling_session_turn(memory, ranges, &session, &unused, words, 3, trace, 3, statuses, 3);
    hold(ran.answer == MILESTARLING_NOT_ALLOWED && ran.steps == 2 && ran.code == 0 && ran.address == 4108, "the other's bytes");
    hold(trace[0].code == 8 && trace[0].address == 4096 && trace[1].code == 68 && trace[1].address == 4104, "the steps before");
    hold(same(&session, &ran.session) && session.pc == 8 && taint[9] == 1 && taint[8] == 0 && taint[12] == 0, "stand");
    before.pc = session.pc = 0;
    ran = milestarling_session_turn(memory, milestarling_ranges_swapped(ranges), &session, &unused, words, 3, trace, 3, statuses, 3);
    hold(ran.answer == MILESTARLING_NOT_ALLOWED && ran.steps == 1 && ran.address == 4104, "ours, in the other's turn");
    ran = milestarling_turn(words + 1, 1, before, unused.value, unused.taint, 4096, ranges, bytes, 16, taint, 15, &trace->code, 6,
        statuses, 3);
    hold(ran.answer == MILESTARLING_BAD_WINDOW && same(&ran.session, &before), "by the numbers themselves");
    hold(milestarling_memory_write(milestarling_shared_whole(memory), 4108, statuses, 1, 1) == MILESTARLING_DONE, "the host's own write");
    hold(bytes[12] == statuses[0] && taint[12] == 1, "to the other's bytes");
}

/* Strings, held against the texts that have a length. */
static void texts_are_strings(void)
{
    static const uint32_t words[5] = {0xf8aa5940, 0xf9400420, 0x91000000, 0xf87f5840, 0x385ff020};
    char string[MILESTARLING_STRING_MAX + 1], longer[2 * MILESTARLING_STRING_MAX];
    uint8_t text[MILESTARLING_TEXT_MAX];
    unsigned i;
    for (i = 0; i < 5; i++) {
        const struct milestarling_text_reply counted = milestarling_text(words[i], text, sizeof text);
        struct milestarling_text_reply reply;
        memset(string, '.', sizeof string);
        reply = milestarling_text_string(words[i], string, MILESTARLING_STRING_MAX);
        hold(reply.answer == counted.answer && reply.length == counted.length, "a string's length");
        hold(string[MILESTARLING_STRING_MAX] == '.', "and no more");
        if (reply.answer != MILESTARLING_DONE) {
            hold(string[0] == '.', "a refused one is kept");
            continue;
        }
        hold(memcmp(string, text, reply.length) == 0 && string[reply.length] == 0, "its text");
        hold(milestarling_word_string(string).word == words[i], "and its word");
        memset(longer, ' ', sizeof longer);
        memcpy(longer, string, reply.length);
        longer[sizeof longer - 1] = 0;
        hold(milestarling_word_string(longer).answer == MILESTARLING_NO_SUCH_TEXT, "what is longer than any line");
        memset(string, '.', sizeof string);
        reply = milestarling_text_string(words[i], string, counted.length);
        hold(reply.answer == MILESTARLING_NO_ROOM && reply.length == 0 && string[0] == '.', "no room for the zero");
        reply = milestarling_text_string(words[i], string, counted.length + 1);
        hold(reply.answer == MILESTARLING_DONE && string[counted.length] == 0, "and room");
    }
    hold(milestarling_text_string(words[1], string, 0).answer == MILESTARLING_NO_ROOM, "no buffer");
    hold(milestarling_word_string("").answer == MILESTARLING_NO_SUCH_TEXT, "no text");
    hold(milestarling_word_string("ldr x0, [x1, #8]").word == 0xf9400420, "a literal");
}

static void an_image_is_imported(void)
{
    static const char image[] = ":020000040001F9\n:04000200deadbeefc2\n:00000001FF\n";
    static const char late[] = ":020000040001F9\n:04000200DEADBEEFC2\n:00000001FE\n";
    uint8_t filled[8] = {1, 1, 1, 1, 1, 1, 1, 1}, marks[8] = {1, 1, 1, 1, 1, 1, 1, 1};
    const uint8_t before[8] = {1, 1, 1, 1, 1, 1, 1, 1}, after[8] = {1, 1, 0xde, 0xad, 0xbe, 0xef, 1, 1};
    const uint8_t cleared[8] = {1, 1, 0, 0, 0, 0, 1, 1};
    struct milestarling_memory memory = {NULL, 8, NULL, 8, 0x10000, 8};
    struct milestarling_import_reply reply;
    memory.bytes = filled;
    memory.taint = marks;
    reply = milestarling_memory_import(memory, (const uint8_t *)late, sizeof late - 1);
    hold(reply.answer == MILESTARLING_BAD_CHECKSUM && reply.line == 3, "a line's checksum");
    hold(memcmp(filled, before, 8) == 0 && memcmp(marks, before, 8) == 0, "a refused image changes nothing");
    reply = milestarling_memory_import(memory, (const uint8_t *)image, sizeof image - 1);
    hold(reply.answer == MILESTARLING_DONE && reply.line == 0, "an image");
    hold(memcmp(filled, after, 8) == 0 && memcmp(marks, cleared, 8) == 0, "its bytes, untainted");
    reply = milestarling_memory_import(memory, NULL, 0);
    hold(reply.answer == MILESTARLING_MALFORMED && reply.line == 1, "no lines");
    memory.origin = 0x10003;
    reply = milestarling_memory_import(memory, (const uint8_t *)image, sizeof image - 1);
    hold(reply.answer == MILESTARLING_OUT_OF_WINDOW && reply.line == 2, "a byte before memory");
    memory.readonly = 9;
    reply = milestarling_memory_import(memory, (const uint8_t *)image, sizeof image - 1);
    hold(reply.answer == MILESTARLING_BAD_WINDOW && reply.line == 0, "a read-only part that is too long");
}

int main(void)
{
    uint64_t answer;
    uint8_t short_line[MILESTARLING_SHORT_MAX];
    const uint8_t over[3] = {1, 2, 3};
    struct milestarling_vectors before;
    fill(&unused);
    before = unused;
    a_host_carries_taints();
    a_known_value_is_not_tainted();
    bytes_keep_their_taints();
    a_session_is_changed_in_place();
    a_run_goes_on_from_a_session();
    taint_bytes_have_a_length_of_their_own();
    a_host_reads_and_writes_memory();
    a_step_finds_its_region();
    a_host_opens_the_monitor();
    a_session_observes_a_step_of_anothers();
    a_session_observes_a_write_of_the_hosts();
    a_session_observes_a_run_of_anothers();
    vector_registers_are_read_and_set();
    a_load_clears_what_it_does_not_fill();
    a_vector_register_copies_taints();
    the_start_is_explained();
    a_copy_is_explained();
    plugins_take_turns();
    an_image_is_imported();
    texts_are_strings();
    hold(same_vectors(&unused, &before), "words without vector registers leave them alone");
    hold(milestarling_list(over, 3, short_line, sizeof short_line).length == MILESTARLING_SHORT_MAX, "the short line");
    for (answer = 0; answer < 64; answer++) {
        const char *text = milestarling_answer_text(answer);
        if (text != milestarling_answer_text(UINT64_MAX))
            printf("| %d | %s |\n", (int)answer, text);
    }
    hold(milestarling_version() == MILESTARLING_VERSION_NUMBER && milestarling_version_fits(), "the library's version");
    printf("%d.%d.%d %s\n", MILESTARLING_VERSION_MAJOR, MILESTARLING_VERSION_MINOR, MILESTARLING_VERSION_PATCH,
        MILESTARLING_VERSION);
    return failed;
}
