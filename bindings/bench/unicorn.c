// Unicorn as a peer of the benchmark. It has neither taints nor statuses. A list's words are translated once, when they are first
// run, and again where they are to be forgotten.
#include "peers.h"
#include <stdbool.h>
#include <stdio.h>
#include <stdlib.h>
#include <string.h>
#include <unicorn/unicorn.h>

enum { REGISTERS = 33, PAGE = 1024 };

static uc_engine *engines[2];
static int names[REGISTERS], vector_names[MILESTARLING_VECTORS];
static uint64_t general[REGISTERS];
static uint8_t vectors[MILESTARLING_VECTORS][16];
static void *places[REGISTERS], *vector_places[MILESTARLING_VECTORS];
// A pair calls the hook twice, and one of vectors four times.
static struct milestarling_access noted[4 * WORDS];
static size_t notes;

static void check(uc_err error, const char *what) {
    if (error != UC_ERR_OK) {
        fprintf(stderr, "unicorn: %s: %s\n", what, uc_strerror(error));
        exit(1);
    }
}

static void note(uc_engine *engine, uc_mem_type type, uint64_t address, int size, int64_t value, void *data) {
    (void)engine, (void)value, (void)data;
    noted[notes].code = (uint64_t)size + (type == UC_MEM_WRITE ? MILESTARLING_STORE_CODE : 0);
    noted[notes].address = address;
    notes = (notes + 1) % (sizeof noted / sizeof *noted);
}

static void name_registers(void) {
    for (int i = 0; i < REGISTERS; i++) {
        names[i] = i < 29 ? UC_ARM64_REG_X0 + i : i == 29 ? UC_ARM64_REG_X29 : UC_ARM64_REG_X30;
        places[i] = &general[i];
    }
    names[MILESTARLING_SP] = UC_ARM64_REG_SP;
    names[REGISTERS - 1] = UC_ARM64_REG_PC;
    for (int i = 0; i < MILESTARLING_VECTORS; i++) {
        vector_names[i] = UC_ARM64_REG_Q0 + i;
        vector_places[i] = vectors[i];
    }
}

void unicorn_open(const struct list *lists, unsigned count) {
    name_registers();
    for (int hooked = 0; hooked < 2; hooked++) {
        uc_engine **engine = &engines[hooked];
        check(uc_open(UC_ARCH_ARM64, UC_MODE_ARM, engine), "uc_open");
        // The one that has the ordered instructions.
        check(uc_ctl_set_cpu_model(*engine, UC_CPU_ARM64_MAX), "uc_ctl_set_cpu_model");
        check(uc_mem_map(*engine, LIST_ORIGIN(0), (size_t)count * MEMORY, UC_PROT_ALL), "uc_mem_map");
        for (unsigned i = 0; i < count; i++)
            check(uc_mem_write(*engine, LIST_ORIGIN(i), lists[i].start.bytes, MEMORY), "uc_mem_write");
    }
    uc_hook hook;
    void *callback;
    void (*function)(uc_engine *, uc_mem_type, uint64_t, int, int64_t, void *) = note;
    // ISO C has no cast from a function to what uc_hook_add takes.
    memcpy(&callback, &function, sizeof callback);
    check(uc_hook_add(engines[1], &hook, UC_HOOK_MEM_READ | UC_HOOK_MEM_WRITE, callback, NULL, 1, 0), "uc_hook_add");
}

void unicorn_close(void) {
    uc_close(engines[0]);
    uc_close(engines[1]);
}

void unicorn_begin(int hooked, const struct machine *machine) {
    memcpy(general, machine->session.value, sizeof machine->session.value);
    general[REGISTERS - 1] = machine->session.pc;
    memcpy(vectors, machine->vectors.value, sizeof vectors);
    check(uc_reg_write_batch(engines[hooked], names, places, REGISTERS), "uc_reg_write_batch");
    check(uc_reg_write_batch(engines[hooked], vector_names, vector_places, MILESTARLING_VECTORS), "uc_reg_write_batch");
    // No list stores to its words, and to write them would have them translated anew.
    check(uc_mem_write(engines[hooked], machine->origin, machine->bytes, CODE), "uc_mem_write");
    notes = 0;
}

void unicorn_forget(int hooked) {
    check(uc_ctl_flush_tlb(engines[hooked]), "uc_ctl_flush_tlb");
}

void unicorn_run(int hooked, uint64_t pc, size_t count, size_t length) {
    for (size_t i = 0; i < count; i += length)
        check(uc_emu_start(engines[hooked], pc + 4 * i, pc + 4 * (i + length), 0, length == 1), "uc_emu_start");
}

// The next of what the hook has seen. A load across two of its pages is followed by one from each, which are part of it.
static struct milestarling_access next_noted(size_t *next) {
    const struct milestarling_access access = noted[*next];
    const bool across = access.address % PAGE + access.code > PAGE;
    *next += access.code < MILESTARLING_STORE_CODE && across ? 3 : 1;
    return access;
}

// Joins what the hook has seen of each word: the trace that is expected says how many bytes that is.
static void join_notes(struct machine *machine) {
    size_t next = 0;
    for (size_t i = 0; i < WORDS; i++) {
        const uint64_t bytes = machine->trace[i].code % MILESTARLING_STORE_CODE;
        struct milestarling_access joined = next_noted(&next);
        while (joined.code % MILESTARLING_STORE_CODE < bytes && next < notes
            && noted[next].address == joined.address + joined.code % MILESTARLING_STORE_CODE)
            joined.code += next_noted(&next).code % MILESTARLING_STORE_CODE;
        machine->trace[i] = joined;
    }
}

void unicorn_end(int hooked, struct machine *machine) {
    check(uc_reg_read_batch(engines[hooked], names, places, REGISTERS), "uc_reg_read_batch");
    check(uc_reg_read_batch(engines[hooked], vector_names, vector_places, MILESTARLING_VECTORS), "uc_reg_read_batch");
    check(uc_mem_read(engines[hooked], machine->origin, machine->bytes, MEMORY), "uc_mem_read");
    memcpy(machine->session.value, general, sizeof machine->session.value);
    machine->session.pc = general[REGISTERS - 1];
    memcpy(machine->vectors.value, vectors, sizeof vectors);
    if (hooked)
        join_notes(machine);
}
