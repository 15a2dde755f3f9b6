// The loads and stores by hand, in C: what a host would have that wrote them itself, and the bar of the benchmark. It has the
// library's record, memory, taints by byte, trace, statuses and answers, and changes all of it in place.
#ifndef HAND_H
#define HAND_H

#include "../../include/milestarling.h"

// How many steps were done, and of the last one tried its answer, code and address.
struct hand_reply {
    uint64_t steps, answer, code, address;
};

struct hand_reply hand_run(struct milestarling_memory memory, struct milestarling_session *session,
    struct milestarling_vectors *vectors, const uint32_t *words, size_t count, struct milestarling_access *trace,
    size_t trace_length, uint8_t *statuses, size_t statuses_length);

struct milestarling_step_reply hand_step(
    struct milestarling_memory memory, struct milestarling_session *session, struct milestarling_vectors *vectors, uint32_t word);

#endif
