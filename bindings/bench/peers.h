// The peers of the benchmark that aren't C by hand: plain Rust, in reference.rs, and Unicorn, in unicorn.c.
#ifndef PEERS_H
#define PEERS_H

#include "lists.h"

struct reference_state;

struct reference_reply {
    uint64_t steps, answer, code, address;
};

struct reference_state *reference_begin(const struct milestarling_session *session, const struct milestarling_vectors *vectors);

void reference_run(const struct milestarling_memory *memory, struct reference_state *state, const uint32_t *words, size_t count,
    struct milestarling_access *trace, uint8_t *statuses, struct reference_reply *reply);

// Ends the state, and writes what it holds.
void reference_end(struct reference_state *state, struct milestarling_session *session, struct milestarling_vectors *vectors);

// Opens Unicorn on the memory of all these lists: without hooks, and with a hook that keeps a trace.
void unicorn_open(const struct list *lists, unsigned count);

void unicorn_close(void);

// Puts a machine's state there.
void unicorn_begin(int hooked, const struct machine *machine);

// Forgets what was translated.
void unicorn_forget(int hooked);

// Runs words from pc on, of which so many are done by one start.
void unicorn_run(int hooked, uint64_t pc, size_t count, size_t length);

// Writes what it holds to the machine: registers, memory, and with a hook the trace.
void unicorn_end(int hooked, struct machine *machine);

#endif
