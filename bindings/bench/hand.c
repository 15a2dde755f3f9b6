// Decoder, step and run by hand. A word is decoded each time into an instruction whose fields are all numbers; its address is
// formed and tested; and the bytes are moved with their taints.
#include "hand.h"
#include <stdbool.h>
#include <string.h>

#define INLINE static inline __attribute__((always_inline))

// The first four as the two bits that a word with one general register has for them.
enum operation { STORE, LOAD, LOAD_SIGNED_64, LOAD_SIGNED_32, PREFETCH };

struct instruction {
    enum operation operation;
    unsigned size; // the logarithm of the bytes that one register moves
    unsigned rt, rt2, rn, other; // the last is the index, or the register of the status
    unsigned option; // of the index, with the bit that shifts it
    bool vector, pair, literal, indexed, writes_back, post, ordered, monitored;
    uint64_t offset;
};

INLINE uint64_t sign_extended(uint64_t value, unsigned bits) {
    return (uint64_t)((int64_t)(value << (64 - bits)) >> (64 - bits));
}

// 1 in every byte that isn't 0.
INLINE uint64_t marks_of(uint64_t bytes) {
    const uint64_t low = UINT64_C(0x7f7f7f7f7f7f7f7f);
    return (((bytes & low) + low) | bytes) >> 7 & MILESTARLING_TAINT_ALL_BYTES;
}

// Size and operation of a word that moves one register.
INLINE uint64_t decode_kind(uint32_t word, bool has_hints, struct instruction *in) {
    const unsigned size = word >> 30, code = word >> 22 & 3;
    in->size = size;
    in->operation = (enum operation)code;
    if (in->vector) {
        in->operation = (enum operation)(code & 1);
        if (code < 2)
            return MILESTARLING_DONE;
        in->size = 4;
        return size == 0 ? MILESTARLING_DONE : MILESTARLING_UNDEFINED;
    }
    if (size == 3 && code == 2) {
        in->operation = PREFETCH;
        return has_hints ? MILESTARLING_DONE : MILESTARLING_UNDEFINED;
    }
    return size >= 2 && code == 3 ? MILESTARLING_UNDEFINED : MILESTARLING_DONE;
}

INLINE uint64_t decode_single(uint32_t word, struct instruction *in) {
    const unsigned form = word >> 10 & 3;
    uint64_t answer;
    if (word >> 24 & 1) {
        answer = decode_kind(word, true, in);
        in->offset = (uint64_t)(word >> 10 & 0xfff) << in->size;
        return answer;
    }
    if (word >> 21 & 1) {
        if (form != 2)
            return MILESTARLING_NOT_IN_SET;
        in->indexed = true;
        in->other = word >> 16 & 31;
        in->option = word >> 12 & 15;
        answer = decode_kind(word, true, in);
        return word >> 14 & 1 ? answer : MILESTARLING_UNDEFINED;
    }
    if (form == 2)
        return MILESTARLING_NOT_IN_SET;
    in->offset = sign_extended(word >> 12, 9);
    in->writes_back = form != 0;
    in->post = form == 1;
    answer = decode_kind(word, form == 0, in);
    if (answer == MILESTARLING_DONE && in->writes_back && !in->vector && in->rn == in->rt && in->rn != 31)
        return MILESTARLING_UNPREDICTABLE;
    return answer;
}

INLINE uint64_t decode_pair(uint32_t word, struct instruction *in) {
    const unsigned size = word >> 30, mode = word >> 23 & 3, load = word >> 22 & 1;
    if (size == 3)
        return MILESTARLING_UNDEFINED;
    in->operation = load ? LOAD : STORE;
    in->size = in->vector ? 2 + size : 2 + size / 2;
    if (size == 1 && !in->vector) {
        if (!load || mode == 0)
            return MILESTARLING_UNDEFINED;
        in->operation = LOAD_SIGNED_64;
    }
    in->pair = true;
    in->rt2 = word >> 10 & 31;
    in->offset = sign_extended(word >> 15, 7) << in->size;
    in->writes_back = mode & 1;
    in->post = mode == 1;
    if (load && in->rt == in->rt2)
        return MILESTARLING_UNPREDICTABLE;
    if (in->writes_back && !in->vector && in->rn != 31 && (in->rn == in->rt || in->rn == in->rt2))
        return MILESTARLING_UNPREDICTABLE;
    return MILESTARLING_DONE;
}

INLINE uint64_t decode_literal(uint32_t word, struct instruction *in) {
    static const enum operation operations[] = {LOAD, LOAD, LOAD_SIGNED_64, PREFETCH};
    const unsigned size = word >> 30;
    in->literal = true;
    in->offset = sign_extended(word >> 5, 19) * 4;
    in->operation = in->vector ? LOAD : operations[size];
    in->size = in->vector ? 2 + size : 2 + size % 2;
    return in->vector && size == 3 ? MILESTARLING_UNDEFINED : MILESTARLING_DONE;
}

INLINE uint64_t decode_exclusive(uint32_t word, struct instruction *in) {
    const bool load = word >> 22 & 1;
    in->monitored = !(word >> 23 & 1);
    in->ordered = !in->monitored;
    if ((word >> 21 & 1) || (in->ordered && !(word >> 15 & 1)))
        return MILESTARLING_NOT_IN_SET;
    in->operation = load ? LOAD : STORE;
    in->size = word >> 30;
    in->other = word >> 16 & 31;
    const bool has_status = in->monitored && !load;
    if ((word >> 10 & 31) != 31 || (!has_status && in->other != 31))
        return MILESTARLING_UNDEFINED;
    if (has_status && (in->other == in->rt || (in->other == in->rn && in->rn != 31)))
        return MILESTARLING_UNPREDICTABLE;
    return MILESTARLING_DONE;
}

// Answer 0, 2, 3 or 4.
INLINE uint64_t decode(uint32_t word, struct instruction *in) {
    in->rt = word & 31;
    in->rn = word >> 5 & 31;
    in->vector = word >> 26 & 1;
    const unsigned top = word >> 24 & 0x3b;
    if (top == 0x38 || top == 0x39)
        return decode_single(word, in);
    if (top == 0x28 || top == 0x29)
        return decode_pair(word, in);
    if (top == 0x18)
        return decode_literal(word, in);
    if (top == 0x19 && !in->vector && (word & 0x200c00) == 0) {
        in->ordered = true;
        in->offset = sign_extended(word >> 12, 9);
        return decode_kind(word, false, in);
    }
    if (top == 0x08 && !in->vector)
        return decode_exclusive(word, in);
    return MILESTARLING_NOT_IN_SET;
}

// Adds the index to the offset. Whether a byte of it that counts is tainted.
INLINE bool add_index(const struct milestarling_session *session, struct instruction *in) {
    const bool narrow = !(in->option >> 1 & 1);
    uint64_t index = in->other == 31 ? 0 : session->value[in->other];
    uint64_t taint = in->other == 31 ? 0 : session->value_taint[in->other].bytes;
    if (narrow) {
        index = in->option >> 3 ? sign_extended(index, 32) : (uint32_t)index;
        taint = (uint32_t)taint;
    }
    in->offset = in->option & 1 ? index << in->size : index;
    return taint != 0;
}

// The low bytes of a number, from the lowest on.
INLINE void put(uint8_t *bytes, uint8_t *taint, unsigned size, uint64_t value, uint64_t marks) {
    switch (size) {
    case 0:
        *bytes = (uint8_t)value;
        *taint = (uint8_t)marks;
        break;
    case 1:
        memcpy(bytes, &value, 2);
        memcpy(taint, &marks, 2);
        break;
    case 2:
        memcpy(bytes, &value, 4);
        memcpy(taint, &marks, 4);
        break;
    default:
        memcpy(bytes, &value, 8);
        memcpy(taint, &marks, 8);
    }
}

INLINE void get(const uint8_t *bytes, const uint8_t *taint, unsigned size, uint64_t *value, uint64_t *marks) {
    *value = *marks = 0;
    switch (size) {
    case 0:
        *value = *bytes;
        *marks = *taint;
        break;
    case 1:
        memcpy(value, bytes, 2);
        memcpy(marks, taint, 2);
        break;
    case 2:
        memcpy(value, bytes, 4);
        memcpy(marks, taint, 4);
        break;
    default:
        memcpy(value, bytes, 8);
        memcpy(marks, taint, 8);
    }
    *marks = marks_of(*marks);
}

INLINE void store_general(
    const struct milestarling_session *session, const struct instruction *in, unsigned number, uint8_t *bytes, uint8_t *taint) {
    if (number == 31)
        put(bytes, taint, in->size, 0, 0);
    else
        put(bytes, taint, in->size, session->value[number], marks_of(session->value_taint[number].bytes));
}

INLINE void load_general(
    struct milestarling_session *session, const struct instruction *in, unsigned number, const uint8_t *bytes, const uint8_t *taint) {
    uint64_t value, marks;
    get(bytes, taint, in->size, &value, &marks);
    if (in->operation != LOAD) {
        const unsigned bits = 8u << in->size;
        value = sign_extended(value, bits);
        if (marks >> (bits - 8))
            marks |= MILESTARLING_TAINT_ALL_BYTES << (bits - 8);
        if (in->operation == LOAD_SIGNED_32) {
            value = (uint32_t)value;
            marks = (uint32_t)marks;
        }
    }
    if (number != 31) {
        session->value[number] = value;
        session->value_taint[number].bytes = marks;
    }
}

INLINE void move_general(struct milestarling_session *session, const struct instruction *in, uint8_t *bytes, uint8_t *taint) {
    const size_t width = (size_t)1 << in->size;
    if (in->operation == STORE) {
        store_general(session, in, in->rt, bytes, taint);
        if (in->pair)
            store_general(session, in, in->rt2, bytes + width, taint + width);
    } else {
        load_general(session, in, in->rt, bytes, taint);
        if (in->pair)
            load_general(session, in, in->rt2, bytes + width, taint + width);
    }
}

// One vector register to memory or from it.
INLINE void move_vector(
    struct milestarling_vectors *vectors, const struct instruction *in, unsigned number, uint8_t *bytes, uint8_t *taint) {
    uint64_t *value = vectors->value[number];
    struct milestarling_taint *marks = vectors->taint[number];
    if (in->operation == STORE) {
        put(bytes, taint, in->size, value[0], marks_of(marks[0].bytes));
        if (in->size == 4)
            put(bytes + 8, taint + 8, 3, value[1], marks_of(marks[1].bytes));
    } else {
        get(bytes, taint, in->size, &value[0], &marks[0].bytes);
        value[1] = marks[1].bytes = 0;
        if (in->size == 4)
            get(bytes + 8, taint + 8, 3, &value[1], &marks[1].bytes);
    }
}

// Asks and sets the monitor. Whether a store-exclusive fails.
INLINE bool ask_monitor(struct milestarling_session *session, const struct instruction *in, uint64_t address, uint64_t total) {
    if (in->operation != STORE) {
        session->monitor_address = address;
        session->monitor_size = total;
        return false;
    }
    const bool fails = session->monitor_address != address || session->monitor_size != total;
    session->monitor_address = session->monitor_size = 0;
    if (in->other != 31) {
        session->value[in->other] = fails;
        session->value_taint[in->other].bytes = 0;
    }
    return fails;
}

INLINE struct milestarling_step_reply refused(uint64_t answer, uint64_t address) {
    return (struct milestarling_step_reply){answer, 0, address, 0};
}

// Does an access that is allowed.
INLINE uint64_t move(struct milestarling_memory memory, struct milestarling_session *session, struct milestarling_vectors *vectors,
    const struct instruction *in, uint64_t address, uint64_t total) {
    uint8_t *bytes = memory.bytes + (address - memory.origin), *taint = memory.taint + (address - memory.origin);
    if (in->vector) {
        const size_t width = (size_t)1 << in->size;
        move_vector(vectors, in, in->rt, bytes, taint);
        if (in->pair)
            move_vector(vectors, in, in->rt2, bytes + width, taint + width);
        return 0;
    }
    // The status is set first: its register is neither that of the data nor the base.
    if (in->monitored && ask_monitor(session, in, address, total))
        return 1;
    move_general(session, in, bytes, taint);
    return 0;
}

INLINE struct milestarling_step_reply do_word(
    struct milestarling_memory memory, struct milestarling_session *session, struct milestarling_vectors *vectors, uint32_t word) {
    struct instruction in = {0};
    const uint64_t answer = decode(word, &in);
    if (answer != MILESTARLING_DONE)
        return refused(answer, 0);
    if (in.operation == PREFETCH) {
        session->pc += 4;
        return refused(MILESTARLING_DONE, 0);
    }
    uint64_t base = session->pc;
    if (!in.literal) {
        base = session->value[in.rn];
        if ((in.indexed && add_index(session, &in)) || session->value_taint[in.rn].bytes != 0)
            return refused(MILESTARLING_TAINTED_ADDRESS, 0);
        if (in.rn == 31 && (base & 15) != 0)
            return refused(MILESTARLING_MISALIGNED, base);
    }
    const uint64_t sum = base + in.offset, address = in.post ? base : sum, total = UINT64_C(1) << in.size << in.pair;
    if ((in.ordered && (address & 15) + total > 16) || (in.monitored && (address & (total - 1)) != 0))
        return refused(MILESTARLING_MISALIGNED, address);
    if (memory.length < total || address - memory.origin > memory.length - total)
        return refused(MILESTARLING_OUT_OF_WINDOW, address);
    if (in.operation == STORE && address - memory.origin < memory.readonly)
        return refused(MILESTARLING_READ_ONLY, address);
    const uint64_t status = move(memory, session, vectors, &in, address, total);
    if (in.writes_back) {
        session->value[in.rn] = sum;
        session->value_taint[in.rn].bytes = 0;
    }
    session->pc += 4;
    const uint64_t code = in.operation == STORE ? MILESTARLING_STORE_CODE + total : total;
    return (struct milestarling_step_reply){MILESTARLING_DONE, code, address, status};
}

INLINE bool is_bad(struct milestarling_memory memory, uint64_t pc) {
    const bool ends_above = memory.length != 0 && memory.origin + (memory.length - 1) < memory.origin;
    return ends_above || memory.readonly > memory.length || memory.taint_length != memory.length || (pc & 3) != 0;
}

struct milestarling_step_reply hand_step(
    struct milestarling_memory memory, struct milestarling_session *session, struct milestarling_vectors *vectors, uint32_t word) {
    if (is_bad(memory, session->pc))
        return refused(MILESTARLING_BAD_WINDOW, 0);
    return do_word(memory, session, vectors, word);
}

struct hand_reply hand_run(struct milestarling_memory memory, struct milestarling_session *session,
    struct milestarling_vectors *vectors, const uint32_t *words, size_t count, struct milestarling_access *trace,
    size_t trace_length, uint8_t *statuses, size_t statuses_length) {
    struct hand_reply reply = {0, MILESTARLING_DONE, 0, 0};
    if (is_bad(memory, session->pc))
        reply.answer = MILESTARLING_BAD_WINDOW;
    else if (trace_length < count || statuses_length < count)
        reply.answer = MILESTARLING_NO_ROOM;
    if (reply.answer != MILESTARLING_DONE)
        return reply;
    for (; reply.steps < count; reply.steps++) {
        const struct milestarling_step_reply step = do_word(memory, session, vectors, words[reply.steps]);
        reply.answer = step.answer;
        reply.code = step.code;
        reply.address = step.address;
        if (step.answer != MILESTARLING_DONE)
            break;
        trace[reply.steps] = (struct milestarling_access){step.code, step.address};
        statuses[reply.steps] = (uint8_t)step.status;
    }
    return reply;
}
