// Runs a program for AArch64 Linux with its loads and stores done by Milestarling, and all else by Unicorn.
//
//   lockstep compare|alone REPORT ROOT CAPABILITIES zva|no-zva PROGRAM [ARGUMENT..]
//
// By `compare` Unicorn does the loads and stores too, on a memory of its own, and after each word all registers, pc and the
// bytes stored are compared. What the kernel's part (linux.c) hands to the program and takes from it goes by the library's
// memory, which nothing else stores to but the library; only of a word that the library refuses the bytes that Unicorn stored
// are copied. At the end both memories are compared as a whole. By `alone` there is the library's memory only, and a word that
// the library has done never comes to Unicorn, which goes on behind it with the registers that the library left.
//
// Nothing is tainted, since Unicorn computes without taints.
//
// The report, a file, has a line for each number: `words N`, `kind KIND ANSWER N`, `refused WORD ANSWER N`, `differences N`,
// `unknown-calls N`. Each difference is said on standard error. The exit status is the program's, or 125.
//
// WITH_VECTORS is defined where the library's step takes vector registers.
#include "linux.h"

#include <milestarling.h>
#include <stdarg.h>
#include <stdio.h>
#include <stdlib.h>
#include <string.h>
#include <sys/mman.h>
#include <unicorn/unicorn.h>

enum { GENERAL = MILESTARLING_REGISTERS, VECTORS = 32, ANSWERS = 9, SHOWN = 20, ACCESSES = 128, BESIDE = 32 };

static int is_alone;

// The library's memory with its taints, and Unicorn's.
static uint8_t *ours, *taint, *theirs;
static uc_engine *unicorn;

static struct milestarling_session session;
#ifdef WITH_VECTORS
static uint64_t vectors[VECTORS][2];
static struct milestarling_taint vector_taint[VECTORS][2];
#endif

// Unicorn's registers, and how it names them: general ones and then vectors.
static struct {
    uint64_t general[GENERAL], vector[VECTORS][2];
} registers;
static int names[GENERAL + VECTORS];
static void *places[GENERAL + VECTORS];

// The word that Unicorn does, whether it touches memory, and what the library made of it then.
static struct {
    uint64_t pc;
    uint32_t word;
    int touches_memory;
    struct milestarling_step_reply reply;
} current;

// Unicorn's accesses in the current word.
static struct access {
    uint64_t address, length;
    int is_store;
} accesses[ACCESSES];
static size_t access_count;

static uint64_t words_done, differences;

_Noreturn void fail(const char *message, ...) {
    va_list arguments;
    va_start(arguments, message);
    fputs("lockstep: ", stderr);
    vfprintf(stderr, message, arguments);
    fputc('\n', stderr);
    va_end(arguments);
    exit(125);
}

static void check(uc_err error, const char *what) {
    if (error != UC_ERR_OK)
        fail("%s: %s, at %llx, %08x", what, uc_strerror(error), (unsigned long long)current.pc, current.word);
}

// Memory

static int is_inside(uint64_t address, uint64_t length) {
    return address >= ORIGIN && length <= MEMORY_LENGTH && address - ORIGIN <= MEMORY_LENGTH - length;
}

void *guest_bytes(uint64_t address, size_t length) {
    if (!is_inside(address, length))
        fail("the program hands out %llx, which is outside memory", (unsigned long long)address);
    return ours + (address - ORIGIN);
}

void guest_write(uint64_t address, const void *bytes, size_t length) {
    memmove(guest_bytes(address, length), bytes, length);
    // By Unicorn's function, so that code that was there before is translated anew.
    check(uc_mem_write(unicorn, address, bytes, length), "uc_mem_write");
}

// Counts

static const char *const kinds[] = {"general", "vector", "exclusive", "structure", "atomic", "dc-zva", "other"};
enum kind { IS_GENERAL, IS_VECTOR, IS_EXCLUSIVE, IS_STRUCTURE, IS_ATOMIC, IS_DC_ZVA, IS_OTHER, KINDS };
static uint64_t counts[KINDS][ANSWERS];

// By the bits of Arm's table of loads and stores. Acquiring and releasing ones count as exclusive, and compare and swap as
// atomic. Others are pairs of exclusives, unprivileged and authenticated ones, tags, and copies of memory.
static enum kind kind_of(uint32_t word) {
    uint32_t family = word >> 27 & 7, upper = word >> 24 & 3, bit21 = word >> 21 & 1, low = word >> 10 & 3;
    int is_vector = word >> 26 & 1;
    if ((word & 0x0a000000) != 0x08000000)
        return IS_DC_ZVA;
    if (family == 1 && is_vector)
        return IS_STRUCTURE;
    if (family == 1 && upper == 0 && bit21 == 1)
        return word >> 23 & 1 || word >> 31 == 0 ? IS_ATOMIC : IS_OTHER;
    if ((family == 1 && upper == 0) || (family == 3 && upper == 1 && bit21 == 0 && low == 0 && !is_vector))
        return IS_EXCLUSIVE;
    if (family == 7 && upper == 0 && bit21 == 1 && low == 0)
        return IS_ATOMIC;
    int is_sized = family == 7 && (upper == 1 || (upper == 0 && (low == 2) == (bit21 == 1)));
    if ((family == 3 && upper == 0) || family == 5 || is_sized)
        return is_vector ? IS_VECTOR : IS_GENERAL;
    return IS_OTHER;
}

// How often each word was refused, and its last answer, found by a hash.
static struct refused {
    uint32_t word;
    uint64_t answer, count;
} refused[1 << 16];
enum { SLOTS = sizeof refused / sizeof *refused };

static void count_refused(uint32_t word, uint64_t answer) {
    size_t slot = word * UINT32_C(2654435761) >> 16, tries = 0;
    for (; refused[slot].count != 0 && refused[slot].word != word; slot = (slot + 1) % SLOTS)
        if (++tries == SLOTS)
            fail("too many different words are refused");
    refused[slot] = (struct refused){word, answer, refused[slot].count + 1};
}

static void report(const char *path) {
    FILE *file = fopen(path, "w");
    if (file == NULL)
        fail("%s can't be written", path);
    fprintf(file, "words %llu\n", (unsigned long long)words_done);
    for (int kind = 0; kind < KINDS; kind++)
        for (int answer = 0; answer < ANSWERS; answer++)
            if (counts[kind][answer] != 0)
                fprintf(file, "kind %s %d %llu\n", kinds[kind], answer, (unsigned long long)counts[kind][answer]);
    for (size_t i = 0; i < SLOTS; i++)
        if (refused[i].count != 0)
            fprintf(file, "refused %08x %d %llu\n", refused[i].word, (int)refused[i].answer,
                (unsigned long long)refused[i].count);
    fprintf(file, "differences %llu\nunknown-calls %llu\n", (unsigned long long)differences, (unsigned long long)unknown_calls);
    if (fclose(file) != 0)
        fail("%s can't be written", path);
}

// The comparison

static void differ(const char *what, uint64_t mine, uint64_t other) {
    if (++differences > SHOWN)
        return;
    uint8_t text[MILESTARLING_TEXT_MAX + 1] = "-";
    if (milestarling_text(current.word, text, MILESTARLING_TEXT_MAX).answer != MILESTARLING_DONE)
        text[1] = 0;
    fprintf(stderr, "lockstep: at %llx, %08x, %s: %s %llx, Unicorn %llx\n", (unsigned long long)current.pc, current.word, text,
        what, (unsigned long long)mine, (unsigned long long)other);
}

static void name_registers(void) {
    for (int i = 0; i < GENERAL; i++) {
        names[i] = i < 29 ? UC_ARM64_REG_X0 + i : i == 29 ? UC_ARM64_REG_X29 : i == 30 ? UC_ARM64_REG_X30 : UC_ARM64_REG_SP;
        places[i] = &registers.general[i];
    }
    for (int i = 0; i < VECTORS; i++) {
        names[GENERAL + i] = UC_ARM64_REG_Q0 + i;
        places[GENERAL + i] = registers.vector[i];
    }
}

static void read_registers(void) {
    check(uc_reg_read_batch(unicorn, names, places, GENERAL + VECTORS), "uc_reg_read_batch");
}

// The library's step, from the registers that Unicorn has.
static struct milestarling_step_reply step(uint32_t word, uint64_t pc) {
    memcpy(session.value, registers.general, sizeof session.value);
    session.pc = pc;
#ifdef WITH_VECTORS
    memcpy(vectors, registers.vector, sizeof vectors);
    return milestarling_step(word, &session, vectors, vector_taint, ORIGIN, 0, ours, MEMORY_LENGTH, taint, MEMORY_LENGTH);
#else
    return milestarling_step(word, &session, ORIGIN, 0, ours, MEMORY_LENGTH, taint, MEMORY_LENGTH);
#endif
}

// Hands the registers that the step has changed to Unicorn, and has it go on at the next word.
static void pass_over_word(void) {
    for (int i = 0; i < GENERAL; i++)
        if (session.value[i] != registers.general[i])
            check(uc_reg_write(unicorn, names[i], &session.value[i]), "uc_reg_write");
#ifdef WITH_VECTORS
    for (int i = 0; i < VECTORS; i++)
        if (memcmp(vectors[i], registers.vector[i], sizeof vectors[i]) != 0)
            check(uc_reg_write(unicorn, names[GENERAL + i], vectors[i]), "uc_reg_write");
#endif
    check(uc_reg_write(unicorn, UC_ARM64_REG_PC, &session.pc), "uc_reg_write");
}

static void compare_registers(uint64_t pc) {
    if (session.pc != pc)
        differ("pc", session.pc, pc);
    for (int i = 0; i < GENERAL; i++) {
        if (session.value[i] != registers.general[i])
            differ("a register", session.value[i], registers.general[i]);
        if (session.value_taint[i].bytes != 0)
            differ("a register's taint", session.value_taint[i].bytes, 0);
    }
#ifdef WITH_VECTORS
    for (int i = 0; i < 2 * VECTORS; i++) {
        if (vectors[i / 2][i % 2] != registers.vector[i / 2][i % 2])
            differ("half a vector register", vectors[i / 2][i % 2], registers.vector[i / 2][i % 2]);
        if (vector_taint[i / 2][i % 2].bytes != 0)
            differ("a vector register's taint", vector_taint[i / 2][i % 2].bytes, 0);
    }
#endif
}

static void compare_memory(void) {
    uint64_t address = current.reply.address, length = current.reply.code % MILESTARLING_STORE_CODE;
    int is_store = current.reply.code >= MILESTARLING_STORE_CODE;
    // With some bytes beside them, so that a store of too many is seen at once.
    uint64_t from = address - ORIGIN < BESIDE ? 0 : address - ORIGIN - BESIDE, to = address - ORIGIN + length + BESIDE;
    if (is_store && memcmp(ours + from, theirs + from, (to < MEMORY_LENGTH ? to : MEMORY_LENGTH) - from) != 0)
        differ("bytes stored at", address, address);
    // Unicorn reads before it stores exclusively, and shows a load across the border of its pages as two aligned ones too.
    for (size_t i = 0; i < access_count; i++)
        if (accesses[i].is_store > is_store || accesses[i].address + accesses[i].length <= address
            || accesses[i].address >= address + length)
            differ("an access at", address, accesses[i].address);
}

// What Unicorn stored by a word that the library refused.
static void copy_stored(void) {
    if (is_alone)
        return;
    for (size_t i = 0; i < access_count; i++)
        if (accesses[i].is_store)
            memcpy(ours + (accesses[i].address - ORIGIN), theirs + (accesses[i].address - ORIGIN), accesses[i].length);
    if (kind_of(current.word) == IS_DC_ZVA) {
        // Unicorn doesn't tell of these. No processor has blocks of more than 2 KiB.
        uint64_t block = (registers.general[current.word & 31] - ORIGIN) / 2048 * 2048;
        memcpy(ours + block, theirs + block, 2048);
    }
}

// The current word is done, and pc has come to the next.
static void finish_word(uint64_t pc) {
    int is_done = current.touches_memory && current.reply.answer == MILESTARLING_DONE;
    if (!current.touches_memory || (is_done && is_alone)) {
        if (access_count != 0)
            differ("no access", 0, accesses[0].address);
    } else if (is_done) {
        compare_registers(pc);
        compare_memory();
    } else {
        copy_stored();
    }
    access_count = 0;
}

static void begin_word(uint64_t pc) {
    current.pc = pc;
    memcpy(&current.word, guest_bytes(pc, sizeof current.word), sizeof current.word);
    current.touches_memory = milestarling_touches_memory_inline(current.word);
    words_done++;
    if ((current.word & 0xfffff0ff) == 0xd503305f) // clrex, which is the host's to do
        milestarling_open(&session);
    if (current.touches_memory) {
        current.reply = step(current.word, pc);
        counts[kind_of(current.word)][current.reply.answer]++;
        if (current.reply.answer != MILESTARLING_DONE)
            count_refused(current.word, current.reply.answer);
        else if (is_alone)
            pass_over_word();
    }
}

// Unicorn

static void on_word(uc_engine *uc, uint64_t pc, uint32_t size, void *data) {
    (void)uc, (void)size, (void)data;
    uint32_t word;
    memcpy(&word, guest_bytes(pc, sizeof word), sizeof word);
    if (current.touches_memory || milestarling_touches_memory_inline(word))
        read_registers();
    finish_word(pc);
    begin_word(pc);
}

static void on_access(uc_engine *uc, uc_mem_type type, uint64_t address, int length, int64_t value, void *data) {
    (void)uc, (void)value, (void)data;
    if (access_count == ACCESSES || !is_inside(address, (uint64_t)length))
        fail("Unicorn's access at %llx, by %08x", (unsigned long long)address, current.word);
    accesses[access_count++] = (struct access){address, (uint64_t)length, type == UC_MEM_WRITE};
}

// `svc`, after it has begun as a word.
static void on_exception(uc_engine *uc, uint32_t number, void *data) {
    (void)data;
    enum { SUPERVISOR_CALL = 2 };
    if (number != SUPERVISOR_CALL)
        fail("exception %d at %llx, by %08x", (int)number, (unsigned long long)current.pc, current.word);
    read_registers();
    uint64_t result = system_call(registers.general[8], registers.general);
    check(uc_reg_write(uc, UC_ARM64_REG_X0, &result), "uc_reg_write");
    if (exited)
        check(uc_emu_stop(uc), "uc_emu_stop");
}

// `mrs`: DCZID_EL0 with bit 4 set says that there is no `dc zva`. All other registers are Unicorn's.
static uint32_t on_system_register(uc_engine *uc, uc_arm64_reg target, const uc_arm64_cp_reg *source, void *data) {
    (void)data;
    const uint64_t prohibited = 0x10;
    if (source->op0 != 3 || source->op1 != 3 || source->crn != 0 || source->crm != 0 || source->op2 != 7)
        return 0;
    check(uc_reg_write(uc, (int)target, &prohibited), "uc_reg_write");
    return 1;
}

static uint8_t *fresh_memory(void) {
    void *memory = mmap(NULL, MEMORY_LENGTH, PROT_READ | PROT_WRITE, MAP_PRIVATE | MAP_ANONYMOUS | MAP_NORESERVE, -1, 0);
    if (memory == MAP_FAILED)
        fail("no memory");
    return memory;
}

static void hook(int type, void *function, int instruction) {
    uc_hook added;
    check(uc_hook_add(unicorn, &added, type, function, NULL, 1, 0, instruction), "uc_hook_add");
}

static void open_machine(int has_zva) {
    ours = fresh_memory(), taint = fresh_memory();
    theirs = is_alone ? ours : fresh_memory();
    name_registers();
    check(uc_open(UC_ARCH_ARM64, UC_MODE_ARM, &unicorn), "uc_open");
    check(uc_ctl_set_cpu_model(unicorn, UC_CPU_ARM64_MAX), "uc_ctl_set_cpu_model");
    check(uc_mem_map_ptr(unicorn, ORIGIN, MEMORY_LENGTH, UC_PROT_ALL, theirs), "uc_mem_map_ptr");
    const uint64_t vectors_enabled = 3 << 20;
    check(uc_reg_write(unicorn, UC_ARM64_REG_CPACR_EL1, &vectors_enabled), "uc_reg_write");
    hook(UC_HOOK_CODE, (void *)on_word, 0);
    hook(UC_HOOK_MEM_READ | UC_HOOK_MEM_WRITE, (void *)on_access, 0);
    hook(UC_HOOK_INTR, (void *)on_exception, 0);
    if (!has_zva)
        hook(UC_HOOK_INSN, (void *)on_system_register, UC_ARM64_INS_MRS);
}

int main(int count, char **arguments) {
    if (count < 7)
        fail("usage: lockstep compare|alone REPORT ROOT CAPABILITIES zva|no-zva PROGRAM [ARGUMENT..]");
    is_alone = strcmp(arguments[1], "alone") == 0;
    open_machine(strcmp(arguments[5], "zva") == 0);
    struct entry entry = load_program(arguments[3], arguments + 6, strtoull(arguments[4], NULL, 0));
    check(uc_reg_write(unicorn, UC_ARM64_REG_SP, &entry.sp), "uc_reg_write");
    check(uc_emu_start(unicorn, entry.pc, 0, 0, 0), "uc_emu_start");
    if (!exited)
        fail("the program ended without a call");
    if (memcmp(ours, theirs, MEMORY_LENGTH) != 0)
        differ("the memories at the end", 0, 0);
    report(arguments[2]);
    return exit_status;
}
