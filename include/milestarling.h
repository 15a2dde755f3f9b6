/*
 * Milestarling for C and C++: the loads and stores of an AArch64 emulator, their text, and their listing.
 *
 * `bash tools/library.sh` builds target/staticlib/libmilestarling.a, for x86-64 Linux; `bash tools/install.sh
 * PREFIX` puts it, this header and a file for pkg-config below a prefix. It calls nothing but memcpy, memmove, memset and
 * memcmp, which every compiler takes for granted, and can be linked into a shared object.
 *
 * The host's loop: loads and stores are done here, and all other words are the host's to compute. So it asks
 * milestarling_touches_memory of each word first. One that touches memory is stepped, and the plugin is stopped where the
 * answer isn't 0. That goes for answer 2 too: it is then a load or store that isn't taken, such as an atomic one or one of
 * a vector's elements, and to pass it over or to compute it would lose bytes and taints in silence. One that doesn't touch
 * memory is computed, and the host adds 4 to pc or branches itself. Answer 2 by itself doesn't tell the two apart.
 *
 * The host's own duty: taints (documents 01 and 02 call them marks) follow the bytes of a value through the loads and stores
 * that are done here, and nowhere else. A host that computes between two calls (add, and, mov, ..) must carry them itself:
 * struct milestarling_taint, below, says which operation spreads how. And it must not branch on a value with a tainted byte,
 * nor take one for an address of its own. A host that loads a letter of a password into x1, sets x2 = x1 & 15 without
 * setting x2's taint, and then runs `ldrb w3, [x7, x2]`, gets answer 0 and a trace whose address tells the password. With
 * x2's taint set it gets answer 5. A value that the plugin needs to branch on, though it came of a secret, such as a length
 * or the verdict on a password, is the host's to give out, by setting its register without a taint: docs/SECRECY.md.
 * examples/plugin.c is a host that does its duty.
 *
 * A slice is a pointer and the number of its elements. The pointer is never null, even where the length is 0, and points to
 * so many elements. A slice that isn't const overlaps no other slice of the call, and nobody else touches it meanwhile: to
 * run a word that stands in memory, copy the word out first and hand in the copy. A session and vector registers that are
 * lent are as such slices. Beyond that no function has a condition to meet.
 *
 * Threads: nothing here is static, and a call touches what it is lent and nothing else. So calls that are lent different
 * sessions, vector registers, memory and output may go on at the same time; those that are lent the same need a lock of the
 * host's. Where several sessions share memory, each one's monitor has to learn of what the others store: see struct
 * milestarling_session.
 *
 * A compiler that can warns where what a function answers is dropped (MILESTARLING_MUST_USE).
 *
 * The last part of this file has memory to be read and written with its taints, and the run, the step, also in several regions of
 * memory, the turn of one of two plugins, the import of an image and the question why a byte is tainted, all over structs, whose
 * parts can't be taken for each other. milestarling_known has a register's value only where it isn't tainted.
 */
#ifndef MILESTARLING_H
#define MILESTARLING_H

#include <stddef.h>
#include <stdint.h>
#include <string.h>

#ifdef __cplusplus
extern "C" {
#endif

/* Where the language or the compiler has a way to say it: what the function returns has to be looked at. */
#if defined(__cplusplus) ? __cplusplus >= 201703L : defined(__STDC_VERSION__) && __STDC_VERSION__ > 201710L
#define MILESTARLING_MUST_USE [[nodiscard]]
#elif defined(__GNUC__)
#define MILESTARLING_MUST_USE __attribute__((warn_unused_result))
#else
#define MILESTARLING_MUST_USE
#endif

#define MILESTARLING_VERSION_MAJOR 0
#define MILESTARLING_VERSION_MINOR 4
#define MILESTARLING_VERSION_PATCH 0
#define MILESTARLING_VERSION "0.4.0"

/* The same as one number, to be compared: 1,002,003 would be 1.2.3. */
#define MILESTARLING_VERSION_NUMBER \
    (UINT32_C(1000000) * MILESTARLING_VERSION_MAJOR + UINT32_C(1000) * MILESTARLING_VERSION_MINOR + MILESTARLING_VERSION_PATCH)

/*
 * The version of the library that is linked, as MILESTARLING_VERSION_NUMBER is that of the header that the host was compiled with.
 * They differ where an older archive was left behind or is found first, and a record may have another layout there. So a host asks
 * milestarling_version_fits when it starts, and says so and stops where it is 0. An archive from before this function doesn't link.
 */
MILESTARLING_MUST_USE
uint32_t milestarling_version(void);

/* Whether the library that is linked has all that this header says: the same major and minor number, and no earlier patch. */
MILESTARLING_MUST_USE
static inline int milestarling_version_fits(void)
{
    const uint32_t linked = milestarling_version();
    return linked / 1000 == MILESTARLING_VERSION_NUMBER / 1000 && linked >= MILESTARLING_VERSION_NUMBER;
}

/* How many registers a session has: x0 to x30, and sp behind them. */
#define MILESTARLING_REGISTERS 32
#define MILESTARLING_SP 31

/* How many vector registers stand beside it: v0 to v31. */
#define MILESTARLING_VECTORS 32

/* The numbers of a trace for each word, and what a store's code has above the number of its bytes. */
#define MILESTARLING_TRACE_NUMBERS 2
#define MILESTARLING_STORE_CODE 64

/* The numbers of a list of links for each link, and by what a link's number multiplies that of a register. */
#define MILESTARLING_LINK_NUMBERS 3
#define MILESTARLING_LINK_BYTES 16

/* The bytes of a word, and the most bytes of the line for bytes that are left over. */
#define MILESTARLING_WORD_BYTES 4
#define MILESTARLING_SHORT_MAX 10

/* The most bytes that the text of a word has, and a line of a listing with its newline. Both are reached, by f8aa5940. */
#define MILESTARLING_TEXT_MAX 35
#define MILESTARLING_LINE_MAX 47

/* The most bytes that the text of a word has with a zero at its end. */
#define MILESTARLING_STRING_MAX 36

/* The most bytes that a line gains where a listing is rescued, and the most bytes of its line in the report. */
#define MILESTARLING_RESCUE_GAIN 10
#define MILESTARLING_REPORT_LINE_MAX 30

/* What a call answers. Of those that apply to a step, the lowest is given. */
enum milestarling_answer {
    MILESTARLING_DONE = 0,
    /* memory that ends above the address space or is shorter than its read-only part, a taint slice of another
       length than memory, or a pc that isn't a multiple of 4; and in a turn, ranges of which two share a byte or one isn't
       inside memory */
    MILESTARLING_BAD_WINDOW = 1,
    /* the word is no load or store that Milestarling takes; whether it touches memory all the same, and so isn't the
       host's to compute, milestarling_touches_memory says */
    MILESTARLING_NOT_IN_SET = 2,
    /* the word is among the loads and stores, and is undefined: one with unused register fields that aren't all ones too */
    MILESTARLING_UNDEFINED = 3,
    /* the word's effect is unpredictable: it loads one register twice, writes the base back over a general register that it
       moves, or is a store-exclusive whose status register is its data register or its base */
    MILESTARLING_UNPREDICTABLE = 4,
    /* the address would depend on a tainted byte: any of the base's eight, or one of the index that is used, the low four
       for uxtw and sxtw, and all eight for lsl and sxtx */
    MILESTARLING_TAINTED_ADDRESS = 5,
    /* SP as the base that isn't a multiple of 16 (the address is SP), an ordered access that isn't inside one block of
       16 bytes, or an exclusive access whose address isn't a multiple of its size */
    MILESTARLING_MISALIGNED = 6,
    /* an access that isn't inside memory, or a byte asked about that isn't */
    MILESTARLING_OUT_OF_WINDOW = 7,
    /* a store to the read-only part, or in a turn one that touches the shared range */
    MILESTARLING_READ_ONLY = 8,
    /* the text is no instruction's line */
    MILESTARLING_NO_SUCH_TEXT = 9,
    /* a slice is too short for what belongs there: a text, lines, a trace, or a list of statuses or links */
    MILESTARLING_NO_ROOM = 10,
    /* the numbers are those of no word's instruction; or a kind of place, a register or a byte of one that there isn't */
    MILESTARLING_NO_SUCH_INSTRUCTION = 11,
    /* in a turn, an access that lies neither wholly in the plugin's own range nor, being a load, wholly in the shared one */
    MILESTARLING_NOT_ALLOWED = 12,
    /* a line of an image isn't one of Intel HEX, stands after the end, or there is no end */
    MILESTARLING_MALFORMED = 13,
    /* the bytes of an image's line don't add up to 0 */
    MILESTARLING_BAD_CHECKSUM = 14,
    /* a line of an image has a type other than 00, 01 and 04 */
    MILESTARLING_BAD_RECORD_TYPE = 15,
    /* the lister is closed, or is said to hold more than three bytes */
    MILESTARLING_CLOSED = 16,
    /* words, trace or statuses are too short for the steps, or a step is none that a run leaves */
    MILESTARLING_BAD_TRACE = 17,
    /* the step lies after the last one */
    MILESTARLING_AFTER_END = 18
};

/* The length is 0 where the answer isn't. */
struct milestarling_text_reply {
    uint64_t answer;
    uint64_t length;
};

/* The lengths of what is put out and of the report, both 0 where the answer isn't. */
struct milestarling_rescue_reply {
    uint64_t answer;
    uint64_t length;
    uint64_t report_length;
};

/* The word is 0 where the answer isn't. */
struct milestarling_word_reply {
    uint64_t answer;
    uint64_t word;
};

/*
 * The taint of a register: which of its eight bytes are secret or came of a secret. Byte i of the number, from the lowest, is
 * that of byte i of the value, and any but 0 is a taint; a step, and the functions here, leave 0 or 1. It is a struct so that
 * nobody hands in 1 for "tainted", which would be byte 0 alone: MILESTARLING_TAINT_NONE, MILESTARLING_TAINT_ALL and
 * milestarling_taint_bytes make one.
 *
 * A load copies the taints of its bytes. The sign copies above them take that of the top byte loaded, up to byte 3 in a load to
 * 32 bits, and cleared bytes have none. A store copies the taints of the bytes that it stores. A base that is written back and
 * a status have none.
 *
 * What the host computes by itself, it taints by itself. To taint more is safe, to taint less isn't:
 *
 * - mov copies the taint, and a number that stands in the word has none.
 * - and, orr, eor, bic, mvn, and csel by untainted flags: a byte where it is tainted in an operand, milestarling_taint_union.
 * - add, sub, mul, and a shift to the left by an untainted amount: every byte from the lowest on that is tainted in an operand,
 *   since carries go upwards, milestarling_taint_carried of the union.
 * - everything else: all bytes, where any byte of an operand is tainted. That holds of a shift to the right too, which moves
 *   bytes downwards, of a rotation, a bit field, a division, the upper half of a product, a count of bits, a shift by a tainted
 *   amount, and of what reads tainted flags (csel, adc).
 * - An operand that the word shifts or extends by itself (and x0, x1, x2, lsr #8) has the taint of that shift.
 * - A result of 32 bits has the low four of these, milestarling_taint_word: its upper four bytes are cleared.
 * - Flags are tainted where any byte of the result is, be the result dropped (cmp, tst) or not.
 * - On vector registers the same holds of each element by itself. What only moves bytes (mov, dup, ins, umov, fmov, ext, zip, rev)
 *   moves their taints, what mixes elements (addv, tbl, a round of a cipher or a digest) taints all sixteen bytes, and the bytes
 *   above a shorter result are cleared.
 */
struct milestarling_taint {
    uint64_t bytes;
};

/* The number of MILESTARLING_TAINT_ALL. In braces, {MILESTARLING_TAINT_ALL_BYTES}, it initialises a static object too, which in
   strict C the constants below don't. */
#define MILESTARLING_TAINT_ALL_BYTES UINT64_C(0x0101010101010101)

/* No byte, and every byte. */
#ifdef __cplusplus
#define MILESTARLING_TAINT_NONE (milestarling_taint{0})
#define MILESTARLING_TAINT_ALL (milestarling_taint{MILESTARLING_TAINT_ALL_BYTES})
#else
#define MILESTARLING_TAINT_NONE ((struct milestarling_taint){0})
#define MILESTARLING_TAINT_ALL ((struct milestarling_taint){MILESTARLING_TAINT_ALL_BYTES})
#endif

/*
 * A session's record: the values of x0 to x30 and sp, the taints of their bytes, pc, and the monitor of exclusive accesses, an
 * address and a size. The host keeps it; it crosses by value to milestarling_run, which returns it, and is lent to
 * milestarling_step and milestarling_set_register, which change it in place. One of zeros is a new one:
 * `struct milestarling_session session = {0};`. Any bytes in it have a meaning, so that every record is one that a call
 * takes, and gets an answer: a pc that isn't a multiple of 4 is answer 1, and a monitor may hold any two numbers.
 *
 * A step adds 4 to pc where it is done, modulo 2^64, and keeps it where it is refused; a literal's address counts from pc
 * as it is before the step. A host that computes a word by itself moves pc itself, as the loop at the head of this file
 * says. Memory is little-endian: the byte at the lowest address is the lowest of a number.
 *
 * The monitor is armed by a load-exclusive with its address and size, and is open where its size is 0. A store-exclusive
 * asks it: with the same address and size it stores, and its status is 0; otherwise it stores nothing, taints included,
 * and its status is 1. Either way the monitor is open then. No other word of the session looks at it or touches it, and a
 * refused one keeps it. On a processor it also opens when another stores to the bytes that it watches, and that is the
 * host's to tell it:
 *
 * - after another session's step in the same memory, milestarling_observe_step;
 * - after another session's run in it, milestarling_observe_run;
 * - after a write of the host's own, or of a thread that runs no session, milestarling_open; or milestarling_observe_write, which
 *   opens it only where it watches the bytes;
 * - at the plugin's own clrex, which is no load or store and so the host's to compute, milestarling_open.
 *
 * Without that two sessions take one lock at once. To open it at each turn of another's, whatever that did, is no way out:
 * two sessions that take turns of one word then never take the lock. examples/turns.c shows all three. Two plugins that are kept
 * apart by ranges share no lock, and need none of this for each other: see milestarling_turn.
 */
struct milestarling_session {
    uint64_t value[MILESTARLING_REGISTERS];
    struct milestarling_taint value_taint[MILESTARLING_REGISTERS];
    uint64_t pc;
    uint64_t monitor_address;
    uint64_t monitor_size;
};

/*
 * A session's vector registers, v0 to v31, with the taints of their bytes. The host keeps them beside the record, one such
 * struct for each session, and lends them to each run and step. One of zeros is a new one: `struct milestarling_vectors
 * vectors = {0};`. A register has two halves of 64 bits, the low one first, as in memory: `str q0, [x1]` stores value[0][0] at
 * x1 and value[0][1] at x1 + 8. A half's taint is as a general register's.
 *
 * A load to b0, h0, s0, d0 or q0 fills the lowest 1, 2, 4, 8 or 16 bytes of v0, and clears those that it doesn't fill, taints
 * too. A store copies the taints of the bytes that it stores. 31 is a register like any other. A vector register never forms
 * an address: none is answered with 5 for its taint, and none collides with a base, so that `ldr q1, [x1], #16` is done. No
 * other word touches them, and a refused one keeps them.
 */
struct milestarling_vectors {
    uint64_t value[MILESTARLING_VECTORS][2];
    struct milestarling_taint taint[MILESTARLING_VECTORS][2];
};

/* One vector register by its halves. */
struct milestarling_vector_register {
    uint64_t low;
    uint64_t high;
    struct milestarling_taint taint_low;
    struct milestarling_taint taint_high;
};

/* The session after the steps done, how many they are, and of the last step tried its answer, code and address, as in the
   trace: the code is 0 where the answer isn't, and the address too but with answers 6 to 8 and 12. */
struct milestarling_run_reply {
    struct milestarling_session session;
    uint64_t steps;
    uint64_t answer;
    uint64_t code;
    uint64_t address;
};

/* So many bytes of memory from an address on. It may be empty, and then stand anywhere in memory, inside another range or right
   behind memory's last byte too. */
struct milestarling_range {
    uint64_t address;
    uint64_t length;
};

/* The ranges of a turn: what both plugins load from and neither stores to, what the plugin whose turn it is has for itself, and
   what the other has. In the other's turn the last two change places: milestarling_ranges_swapped. */
struct milestarling_ranges {
    struct milestarling_range shared;
    struct milestarling_range own;
    struct milestarling_range other;
};

/* The code, the address and the status of a step, as a run writes them: 0 where the answer isn't, but for the address, which
   is that of the access with answers 6 to 8, or sp's value. The status is 0 but for a store-exclusive that fails. */
struct milestarling_step_reply {
    uint64_t answer;
    uint64_t code;
    uint64_t address;
    uint64_t status;
};

/*
 * A lister of a stream, which the host keeps and hands on by value from call to call: the bytes behind the last whole
 * word, how many of them count, 0 to 3, and whether it is closed, which any number but 0 says. One of zeros is a new
 * one: `struct milestarling_lister lister = {0};`. Every lister is one that a call takes, and gets an answer. What a closed
 * one still holds, nothing reads.
 */
struct milestarling_lister {
    uint8_t first, second, third, count, closed;
};

/* The lister after the call, and where the answer isn't 0 the one that was handed in; the length is 0 then. The three bytes
   of padding behind the lister aren't determined; no other struct of the library has any. */
struct milestarling_lister_reply {
    struct milestarling_lister lister;
    uint64_t answer;
    uint64_t length;
};

/* The number of the line that is refused, from 1: 0 where no line is. */
struct milestarling_import_reply {
    uint64_t answer;
    uint64_t line;
};

/* How many links there are: 0 where the place isn't tainted, and where the answer isn't 0. */
struct milestarling_why_reply {
    uint64_t answer;
    uint64_t links;
};

/*
 * Does a step for each word, in order, up to the first that is refused. A refused step changes nothing.
 *
 * session          the record to begin with; the reply has the one after the steps done
 * vectors          the 32 vector registers, two numbers each, the low half first
 * vector_taint     their taints
 * origin           the address of memory's first byte
 * readonly         how many bytes at the start of memory aren't stored to
 * taint            a byte for each byte of memory, tainted where it isn't 0
 * trace            two numbers for each word, of which those of the steps done are written: the code, which is the
 *                  number of bytes moved, plus 64 for a store, or 0 for a prefetch; and the address
 * statuses         a byte for each word, of which those of the steps done are written: 1 for a store-exclusive that has
 *                  failed, whose code and address are those of one that hasn't, and 0 for every other step
 *
 * Answers 0 to 8, or 10 where trace or statuses is too short for all words, which is looked at after 1 and before the
 * first step. With answers 1 and 10 nothing is changed in any slice or vector register, and the session returned is the one
 * handed in. A longer slice keeps its rest.
 */
MILESTARLING_MUST_USE
struct milestarling_run_reply milestarling_run(
    const uint32_t *words, size_t words_length,
    struct milestarling_session session,
    uint64_t (*vectors)[2], struct milestarling_taint (*vector_taint)[2],
    uint64_t origin, uint64_t readonly,
    uint8_t *memory, size_t memory_length,
    uint8_t *taint, size_t taint_length,
    uint64_t *trace, size_t trace_length,
    uint8_t *statuses, size_t statuses_length);

/*
 * Does one word on a session's record, on vector registers and on memory as milestarling_run has them. Answers 0 to 8; with 1
 * to 8 nothing is changed. It is the way to step a word at a time: the record stays where it is, and no trace is needed.
 */
MILESTARLING_MUST_USE
struct milestarling_step_reply milestarling_step(
    uint32_t word, struct milestarling_session *session,
    uint64_t (*vectors)[2], struct milestarling_taint (*vector_taint)[2],
    uint64_t origin, uint64_t readonly,
    uint8_t *memory, size_t memory_length,
    uint8_t *taint, size_t taint_length);

/*
 * One turn of a plugin that shares memory with another: a run of it that loads from the shared range and its own, and stores to
 * its own. Memory and its taint bytes are the same in every turn; session, vector registers, words, trace and statuses are those
 * of the plugin whose turn it is. It goes on from what its own last turn left, also where that was refused: a refusal ends one
 * turn, and says nothing of the next or of the other plugin.
 *
 * ranges           by value. There is no readonly: the shared range takes its place
 *
 * All else is as in milestarling_run. Answers, of which the first that holds is given:
 *
 *  1   as in a run; or two of the three ranges share a byte; or one of them, an empty one too, isn't inside memory. So it is
 *      answered in the turns of both plugins, whosever range is wrong
 * 10   trace or statuses is too short for all words
 *
 * and then of each word in its turn
 *
 *  2 to 7   as in a run: 7 is for an access that isn't inside memory
 *  8   a store that touches the shared range, be it by one byte
 * 12   any other access that isn't allowed: a load that lies neither wholly in the shared range nor wholly in the plugin's own,
 *      such as one across both, and a store that doesn't lie wholly in its own
 *
 * With 8 and 12 the address is that of the access, and the code is 0. A literal is a load like any other, a store-exclusive that
 * fails is tested like one that stores, and a prefetch isn't tested. With answers 1 and 10 nothing is changed. A turn of no words
 * says whether 1 holds, and does nothing else.
 *
 * Proved, for ranges that stay the same and any order of turns of two plugins: whatever the other is and does, with its words,
 * registers, taints, monitor and private bytes exchanged for any others, each turn of this one answers, writes and leaves the
 * same; and what each shows depends on no tainted byte. Only the other's turns come between then: what the host itself sets or
 * stores between two turns is the host's to answer for, as between two runs.
 *
 * The monitor: what one plugin stores lies in its own range, and what the other's monitor watches, where a turn of the other's
 * has armed it, lies in the other's own range or in the shared one. So no store of one reaches what the other's monitor watches,
 * and neither loses a lock to the other. milestarling_observe_step and milestarling_observe_run would change nothing, and a host
 * needn't call them for a turn; milestarling_open at each turn would only make locks fail. After a write of the host's own the
 * monitor is told as ever. A lock between the two there isn't: to take one in the shared range is a store, and answer 8.
 *
 * More than two plugins: the ranges of a turn name two, and what is proved of sequences of turns is proved of two. Of each turn
 * by itself it is proved, whatever its ranges, that the bytes and taint bytes that it changes lie in its own range; and other
 * counts for answer 1 alone. So where the private ranges of all are apart from each other and from the shared one, each turn
 * leaves what every other plugin may load as it was. That they are apart, the host learns by a turn of no words for each pair,
 * once for ranges that stay; other is then the range of any one of the others, or one that covers them all.
 *
 * A host that computes between loads and stores calls this with one word at a time. What it loads or stores for a plugin by itself,
 * such as the zeros of dc zva, it holds against the ranges itself. milestarling_why is of runs, and not promised of turns.
 * milestarling_session_turn, below, takes the same from structs.
 */
MILESTARLING_MUST_USE
struct milestarling_run_reply milestarling_turn(
    const uint32_t *words, size_t words_length,
    struct milestarling_session session,
    uint64_t (*vectors)[2], struct milestarling_taint (*vector_taint)[2],
    uint64_t origin, struct milestarling_ranges ranges,
    uint8_t *memory, size_t memory_length,
    uint8_t *taint, size_t taint_length,
    uint64_t *trace, size_t trace_length,
    uint8_t *statuses, size_t statuses_length);

/*
 * Sets x0 to x30 (0 to 30) or sp (31) of a session's record, with its taint as it is given. Any other number changes nothing.
 */
void milestarling_set_register(
    struct milestarling_session *session, uint32_t number, uint64_t value, struct milestarling_taint taint);

/* One of 32 vector registers with its taint as it stands there. Any number above 31 reads 0, not tainted. Before C23 strict C
   wants a cast for arrays that aren't const; milestarling_vectors_get needs none. */
MILESTARLING_MUST_USE
struct milestarling_vector_register milestarling_vector(
    uint32_t number, const uint64_t (*vectors)[2], const struct milestarling_taint (*vector_taint)[2]);

/* Sets one of 32 vector registers, with its taint as it is given. Any number above 31 changes nothing. */
void milestarling_set_vector(
    uint64_t (*vectors)[2], struct milestarling_taint (*vector_taint)[2], uint32_t number,
    uint64_t low, uint64_t high, struct milestarling_taint taint_low, struct milestarling_taint taint_high);

/* The session with its monitor open: address and size 0, and registers and pc as they were. */
MILESTARLING_MUST_USE
struct milestarling_session milestarling_opened(struct milestarling_session session);

/*
 * The session after a step of another's, which showed this code, address and status: with its monitor open exactly if the
 * step stored a byte that the monitor watches, and else as it was. A store has a code of at least 64, for code - 64 bytes
 * from the address on, and status 0. A refused step (code 0), a load, a prefetch and a store-exclusive that failed (any
 * status but 0) open nothing. milestarling_observe_step and milestarling_observe_run, below, take the numbers from where
 * they stand.
 */
MILESTARLING_MUST_USE
struct milestarling_session milestarling_observed(
    struct milestarling_session session, uint64_t code, uint64_t address, uint64_t status);

/* The kinds of places whose taint is asked about. */
enum milestarling_place_kind {
    MILESTARLING_PLACE_REGISTER = 0, /* a byte of x0 to x30 or sp */
    MILESTARLING_PLACE_MEMORY = 1,   /* a byte of memory */
    MILESTARLING_PLACE_VECTOR = 2    /* a byte of v0 to v31 */
};

/*
 * Why a place is tainted just before a step of a run. Each byte has its taint from the one byte that it was copied from, so that
 * the reason is a list of links: the place, the byte that it was copied from by a load or a store, the byte that this was copied
 * from at an earlier step, and so on, back to a byte that was tainted at the start.
 *
 * words            those of the run, of which there may be more than its steps
 * trace            as the run has written it
 * statuses         as the run has written them
 * steps            how many steps the run has done, refused then or not
 * register_taint   the taints of the 32 registers before the run, as in the record
 * vector_taint     those of the 32 vector registers before it
 * taint            the taint bytes of memory before it
 * origin           the address of memory's first byte
 * readonly         how many bytes at the start of memory aren't stored to
 * memory_length    how many bytes memory has
 * step             counted from 0; the number of steps stands for the end
 * kind             enum milestarling_place_kind
 * number           of the register, 0 to 31, where 31 is sp or v31; or the address of the byte of memory
 * byte             of the register, 0 to 7, or 0 to 15 of a vector register, from the lowest; of memory it isn't looked at
 * links            three numbers for each link, the latest link first: the kind; 16 times the register plus the byte, or the
 *                  address; and the step that tainted this place plus 1, or 0 for the start
 *
 * A run changes the taints that it is lent, so that a host that means to ask keeps a copy of them from before. One that steps a
 * word at a time keeps each word that was done, with the code, the address and the status of its reply. What a host sets or
 * stores by itself is in no trace: there it begins a new one, with a new copy of the taints. Bytes of memory and values of
 * registers aren't handed in, so that no link tells one.
 *
 * Answers, of which the first that holds is given; the list changes only with 0, and a longer one keeps its rest:
 *
 *  1   memory ends above the address space or is shorter than its read-only part, or it hasn't as many bytes as taint bytes
 *  7   the byte of memory isn't inside it
 * 11   there is no such kind, register or byte of a register
 * 17   words, trace or statuses are too short for the steps; or some step, after the one asked about too, is none that a run
 *      leaves: its word has answer 2, 3 or 4, its code isn't the word's, its status is neither 0 nor 1, the address of a
 *      prefetch isn't 0, or that of an access would be refused with 6 (but for SP's own value), 7 or 8. A status of 1 where the
 *      word is no store-exclusive says nothing
 * 18   the step lies after the last one
 * 10   the list has fewer than three numbers for each link
 *  0   the links are written, or there are none, and the place isn't tainted
 *
 * There are never more than step + 1 links: a list of MILESTARLING_LINK_NUMBERS * (step + 1) numbers always suffices.
 * milestarling_session_why, below, takes the same from where it stands. Before C23 strict C wants a cast here for taints of vector
 * registers that aren't const, and none there.
 */
MILESTARLING_MUST_USE
struct milestarling_why_reply milestarling_why(
    const uint32_t *words, size_t words_length,
    const uint64_t *trace, size_t trace_length,
    const uint8_t *statuses, size_t statuses_length,
    uint64_t steps,
    const struct milestarling_taint *register_taint, const struct milestarling_taint (*vector_taint)[2],
    const uint8_t *taint, size_t taint_length,
    uint64_t origin, uint64_t readonly, uint64_t memory_length,
    uint64_t step, uint64_t kind, uint64_t number, uint64_t byte,
    uint64_t *links, size_t links_length);

/*
 * Reads a whole memory image in Intel HEX into memory, and takes the taint from each byte that it writes. It is the host's call,
 * before a run or between two: the read-only part may be filled too.
 *
 * text             lines, each ended by a newline: a colon and pairs of hexadecimal digits, in either case, for the count, two
 *                  bytes of offset, the type, as many bytes as the count says, and the checksum. Type 00 has data, 04 the upper
 *                  half of the addresses behind it, and 01 is the last line
 * origin, readonly, memory, taint    as milestarling_run takes them
 *
 * The address of a data byte is the upper half times 65,536, and the line's offset and the byte's index added, modulo 2^32. A
 * byte that comes later replaces an earlier one.
 *
 * Answers, and with any but 0 memory and taint are as they were: 1 where memory ends above the address space or is shorter than
 * its read-only part, or there isn't a taint byte for each of its bytes. Then that of the lowest line that has a fault, of which
 * the first is given:
 *
 * 13   the line isn't as above, with nothing else in it: a carriage return, a space or a missing newline too; or its count isn't
 *      0 in type 01, or 2 in type 04; or it stands after the end. A missing end is told of the line after the last
 * 14   the bytes of the line don't add up to a multiple of 256
 * 15   its type is another. How to get a text with none: docs/ANSWERS.md
 *  7   a byte of it isn't inside memory
 *
 * The time is linear in the text, and nothing is kept or allocated. milestarling_memory_import, below, takes the same from where
 * it stands.
 */
MILESTARLING_MUST_USE
struct milestarling_import_reply milestarling_import(
    const uint8_t *text, size_t text_length,
    uint64_t origin, uint64_t readonly,
    uint8_t *memory, size_t memory_length,
    uint8_t *taint, size_t taint_length);

/*
 * Writes the line of text of a word to the start of a buffer, without a zero at its end. Answers 0, 2, 3 or 10;
 * the buffer changes only with 0. A buffer of MILESTARLING_TEXT_MAX bytes suffices for every line.
 */
MILESTARLING_MUST_USE
struct milestarling_text_reply milestarling_text(uint32_t word, uint8_t *buffer, size_t buffer_length);

/* The word whose line a text is. Answers 0 or 9. */
MILESTARLING_MUST_USE
struct milestarling_word_reply milestarling_word(const uint8_t *text, size_t text_length);

/*
 * milestarling_text as a string: with a zero at its end, which the length doesn't count. Answers 0, 2, 3 or 10; the buffer changes
 * only with 0. One of MILESTARLING_STRING_MAX suffices for every line.
 */
MILESTARLING_MUST_USE
static inline struct milestarling_text_reply milestarling_text_string(uint32_t word, char *buffer, size_t buffer_length)
{
    uint8_t line[MILESTARLING_TEXT_MAX];
    struct milestarling_text_reply reply = milestarling_text(word, line, sizeof line);
    if (reply.answer != MILESTARLING_DONE)
        return reply;
    if (reply.length >= buffer_length) {
        reply.answer = MILESTARLING_NO_ROOM;
        reply.length = 0;
        return reply;
    }
    memcpy(buffer, line, reply.length);
    buffer[reply.length] = 0;
    return reply;
}

/* milestarling_word of a string, which ends at its zero. */
MILESTARLING_MUST_USE
static inline struct milestarling_word_reply milestarling_word_string(const char *text)
{
    /* one byte more than any line has, so that what is longer is none */
    uint8_t line[MILESTARLING_TEXT_MAX + 1];
    size_t length = 0;
    while (length < sizeof line && text[length] != 0)
        length++;
    memcpy(line, text, length);
    return milestarling_word(line, length);
}

/*
 * Writes the listing of little-endian words to the start of an output: a line for each with the word, its text and
 * its answer 0, 2, 3 or 4, and a line for bytes that are left over. Answers 0 or 10; the output changes only with 0.
 * MILESTARLING_LINE_MAX bytes for each word, and MILESTARLING_SHORT_MAX for bytes left over, always suffice; a shorter output is measured
 * first.
 */
MILESTARLING_MUST_USE
struct milestarling_text_reply milestarling_list(
    const uint8_t *bytes, size_t bytes_length, uint8_t *output, size_t output_length);

/*
 * Rescues a damaged listing, line by line; the last line may lack its newline. A line that is exactly what its eight
 * lower-case hex digits give is kept. A line of two tabs whose first field isn't such digits, but whose second is the text of an
 * allocated word, is restored: it becomes that word's line. Any other is dropped, `short` lines too. Writes the lines that are kept
 * and restored to the start of an output, and a line for each line of the input to the start of a report: its number from 1, a tab,
 * and kept, restored or dropped. All of them end in a newline. Answers 0 or 10; output and report change only with 0.
 * For an input of n bytes and m lines, of which there are never more than bytes, n + m * MILESTARLING_RESCUE_GAIN bytes for the output
 * and m * MILESTARLING_REPORT_LINE_MAX for the report always suffice; shorter ones are measured first, which takes longer.
 * milestarling_rescue_lines counts the lines.
 */
MILESTARLING_MUST_USE
struct milestarling_rescue_reply milestarling_rescue(
    const uint8_t *input, size_t input_length, uint8_t *output, size_t output_length, uint8_t *report, size_t report_length);

/* How many lines an input has: as many as newlines, and one more where the last lacks its own. */
MILESTARLING_MUST_USE
static inline size_t milestarling_rescue_lines(const uint8_t *input, size_t input_length)
{
    size_t lines = 0;
    size_t i;
    for (i = 0; i < input_length; i++)
        if (input[i] == 10)
            lines++;
    if (input_length > 0 && input[input_length - 1] != 10)
        lines++;
    return lines;
}

/*
 * The same listing of bytes that come in fragments, of any length and cut anywhere: writes the lines of the words that
 * are whole with this fragment to the start of an output, and holds the bytes behind them, nought to three, for the next
 * call. What all calls that aren't refused write, from a new lister to its closing, is milestarling_list's listing of
 * their fragments, one behind the other.
 *
 * Answers 0, 16 or 10; the output and the lister change only with 0. 16 is for a lister that is closed or says that it
 * holds more than three bytes, and comes first. After a 10 the call may be repeated with a longer output.
 * MILESTARLING_LINE_MAX bytes for each four of the held bytes and the fragment always suffice.
 */
MILESTARLING_MUST_USE
struct milestarling_lister_reply milestarling_lister_push(
    struct milestarling_lister lister,
    const uint8_t *fragment, size_t fragment_length, uint8_t *output, size_t output_length);

/*
 * The end of such a listing: writes the line for bytes left over, if there are any, to the start of an output, and
 * closes the lister. Answers as above; MILESTARLING_SHORT_MAX bytes always suffice.
 */
MILESTARLING_MUST_USE
struct milestarling_lister_reply milestarling_lister_close(
    struct milestarling_lister lister, uint8_t *output, size_t output_length);

/* ---- Instructions as numbers, for a host that needs more of a word than its text. */

/* The families, in the order of document 01's table; 02's exclusive and acquire/release forms are the ninth. */
enum milestarling_family {
    MILESTARLING_NO_FAMILY = 0,
    MILESTARLING_LITERAL = 1,
    MILESTARLING_PAIR = 2,
    MILESTARLING_ORDERED = 3,
    MILESTARLING_UNSCALED = 4,
    MILESTARLING_POST_INDEX = 5,
    MILESTARLING_PRE_INDEX = 6,
    MILESTARLING_REGISTER = 7,
    MILESTARLING_UNSIGNED = 8,
    MILESTARLING_EXCLUSIVE = 9
};

enum milestarling_direction {
    MILESTARLING_NO_ACCESS = 0, /* a prefetch */
    MILESTARLING_LOAD = 1,
    MILESTARLING_STORE = 2
};

/* The operation of families 3 to 8: size * 4 + opc of the word, and 16 more where its bit 26 is set, for vector registers, which
   the ordered family hasn't got. A signed load extends to 64 bits, or to 32. */
enum milestarling_sized_operation {
    MILESTARLING_STORE_BYTE = 0,
    MILESTARLING_LOAD_BYTE = 1,
    MILESTARLING_LOAD_SIGNED_BYTE_64 = 2,
    MILESTARLING_LOAD_SIGNED_BYTE_32 = 3,
    MILESTARLING_STORE_HALF = 4,
    MILESTARLING_LOAD_HALF = 5,
    MILESTARLING_LOAD_SIGNED_HALF_64 = 6,
    MILESTARLING_LOAD_SIGNED_HALF_32 = 7,
    MILESTARLING_STORE_WORD = 8,
    MILESTARLING_LOAD_WORD = 9,
    MILESTARLING_LOAD_SIGNED_WORD_64 = 10,
    MILESTARLING_STORE_DOUBLE = 12,
    MILESTARLING_LOAD_DOUBLE = 13,
    MILESTARLING_PREFETCH_HINT = 14,
    MILESTARLING_STORE_VECTOR_BYTE = 16,
    MILESTARLING_LOAD_VECTOR_BYTE = 17,
    MILESTARLING_STORE_VECTOR_QUAD = 18,
    MILESTARLING_LOAD_VECTOR_QUAD = 19,
    MILESTARLING_STORE_VECTOR_HALF = 20,
    MILESTARLING_LOAD_VECTOR_HALF = 21,
    MILESTARLING_STORE_VECTOR_WORD = 24,
    MILESTARLING_LOAD_VECTOR_WORD = 25,
    MILESTARLING_STORE_VECTOR_DOUBLE = 28,
    MILESTARLING_LOAD_VECTOR_DOUBLE = 29
};

/* Of a literal: opc, and 4 more for vector registers. */
enum milestarling_literal_operation {
    MILESTARLING_LITERAL_WORD = 0,
    MILESTARLING_LITERAL_DOUBLE = 1,
    MILESTARLING_LITERAL_SIGNED_WORD = 2,
    MILESTARLING_LITERAL_PREFETCH = 3,
    MILESTARLING_LITERAL_VECTOR_WORD = 4,
    MILESTARLING_LITERAL_VECTOR_DOUBLE = 5,
    MILESTARLING_LITERAL_VECTOR_QUAD = 6
};

/* Of a pair: opc * 2 + L, and 8 more for vector registers; and its mode. */
enum milestarling_pair_operation {
    MILESTARLING_STORE_WORDS = 0,
    MILESTARLING_LOAD_WORDS = 1,
    MILESTARLING_LOAD_SIGNED_WORDS = 3,
    MILESTARLING_STORE_DOUBLES = 4,
    MILESTARLING_LOAD_DOUBLES = 5,
    MILESTARLING_STORE_VECTOR_WORDS = 8,
    MILESTARLING_LOAD_VECTOR_WORDS = 9,
    MILESTARLING_STORE_VECTOR_DOUBLES = 10,
    MILESTARLING_LOAD_VECTOR_DOUBLES = 11,
    MILESTARLING_STORE_VECTOR_QUADS = 12,
    MILESTARLING_LOAD_VECTOR_QUADS = 13
};

enum milestarling_pair_mode {
    MILESTARLING_PAIR_NO_ALLOCATE = 0,
    MILESTARLING_PAIR_POST = 1,
    MILESTARLING_PAIR_OFFSET = 2,
    MILESTARLING_PAIR_PRE = 3
};

/* Of the ninth family, one of these and 8 * size, where 2 to the power of size is the number of bytes. */
enum milestarling_exclusive_operation {
    MILESTARLING_STXR = 0,
    MILESTARLING_STLXR = 1,
    MILESTARLING_LDXR = 2,
    MILESTARLING_LDAXR = 3,
    MILESTARLING_STLR = 5,
    MILESTARLING_LDAR = 7
};

/*
 * The numbers of an instruction. A field that the family hasn't got is 0. Registers are 0 to 31, where 31 is sp as the
 * base, v31 as a vector register, and the zero register elsewhere.
 */
struct milestarling_instruction {
    uint32_t family;    /* enum milestarling_family */
    uint32_t operation; /* of the family */
    uint32_t direction; /* enum milestarling_direction */
    uint32_t bytes;     /* all that the access moves, both registers of a pair together, up to 32; 0 for a prefetch */
    uint32_t target;    /* Rt, or the hint of a prefetch */
    uint32_t second;    /* Rt2 of a pair */
    uint32_t base;      /* Rn: of all families but the literal */
    uint32_t index;     /* Rm, with its option (2 uxtw, 3 lsl, 6 sxtw, 7 sxtx) and S */
    uint32_t option;
    uint32_t scaled;
    uint32_t mode;      /* enum milestarling_pair_mode */
    uint32_t status;    /* Rs of stxr and stlxr */
    int64_t offset;     /* in bytes */
};

/* The numbers are 0 where the answer isn't. */
struct milestarling_decode_reply {
    struct milestarling_instruction instruction;
    uint64_t answer;
};

/* The answer that depends on the word alone: 0, 2, 3 or 4. */
MILESTARLING_MUST_USE
uint64_t milestarling_classify(uint32_t word);

/*
 * Whether a word touches memory, 1 or 0: Arm's top table has it among the loads and stores (bit 27 set, bit 25 clear), taken
 * here or not, or it is dc zva, dc gva or dc gzva. What doesn't is the host's to compute, and what does but is answered with
 * 2 stops a plugin.
 *
 * By dc zva the C library's memset stores 64 zeros at once. A host shows a processor that hasn't got it, where
 * `mrs xt, dczid_el0` reads with DZP, bit 4, set (0x10), and memset then does without; or it stops at the word; or it stores
 * the zeros itself, clears their taints and lets every session's monitor observe the store.
 *
 * The loads and stores of SVE and SME stand in parts of Arm's table of their own (bits 28 to 25 are 0010, or bit 31 is set
 * and they are 0000) and aren't counted here, nor are the guarded control stack's, which are system instructions: a host
 * shows a processor without them (SVE of ID_AA64PFR0_EL1, SME and GCS of ID_AA64PFR1_EL1 and their HWCAP bits are 0), and
 * stops at their words, as at every word that it doesn't know.
 */
MILESTARLING_MUST_USE
uint64_t milestarling_touches_memory(uint32_t word);

/* The same without a call. */
MILESTARLING_MUST_USE
static inline int milestarling_touches_memory_inline(uint32_t word)
{
    const uint32_t without_register = word & 0xffffffe0;
    return (word & 0x0a000000) == 0x08000000 || without_register == 0xd50b7420 || without_register == 0xd50b7460
        || without_register == 0xd50b7480;
}

/* The numbers of a word. Answers 0, 2 or 3: a word of answer 4 has numbers, and a text. */
MILESTARLING_MUST_USE
struct milestarling_decode_reply milestarling_decode(uint32_t word);

/*
 * The one word that has these numbers. Answers 0, or 11 where no word has them: each number counts, also one that the
 * family hasn't got, and direction and bytes.
 */
MILESTARLING_MUST_USE
struct milestarling_word_reply milestarling_encode(struct milestarling_instruction instruction);

/* ---- Taints that a host carries. */

/* That of so many bytes from the first on, counted from the lowest, 0: milestarling_taint_bytes(0, 4) is that of w0 in x0. There
   are no bytes above 7. */
MILESTARLING_MUST_USE
static inline struct milestarling_taint milestarling_taint_bytes(uint32_t first, uint32_t count)
{
    struct milestarling_taint taint = MILESTARLING_TAINT_NONE;
    uint32_t i;
    for (i = 0; i < 8; i++)
        if (i >= first && i - first < count)
            taint.bytes |= UINT64_C(1) << (8 * i);
    return taint;
}

/* Every byte that is tainted in one of both. */
MILESTARLING_MUST_USE
static inline struct milestarling_taint milestarling_taint_union(struct milestarling_taint a, struct milestarling_taint b)
{
    a.bytes |= b.bytes;
    /* the lowest bit of a byte becomes whether any of its eight is set */
    a.bytes |= a.bytes >> 4;
    a.bytes |= a.bytes >> 2;
    a.bytes |= a.bytes >> 1;
    a.bytes &= MILESTARLING_TAINT_ALL_BYTES;
    return a;
}

/* Every byte from the lowest tainted one on: of a sum, a difference, a product and a shift to the left. */
MILESTARLING_MUST_USE
static inline struct milestarling_taint milestarling_taint_carried(struct milestarling_taint taint)
{
    taint = milestarling_taint_union(taint, MILESTARLING_TAINT_NONE);
    taint.bytes |= taint.bytes << 8;
    taint.bytes |= taint.bytes << 16;
    taint.bytes |= taint.bytes << 32;
    return taint;
}

/* That of the low four bytes: of a result of 32 bits, whose upper four are 0. */
MILESTARLING_MUST_USE
static inline struct milestarling_taint milestarling_taint_word(struct milestarling_taint taint)
{
    taint.bytes &= UINT32_MAX;
    return milestarling_taint_union(taint, MILESTARLING_TAINT_NONE);
}

/* ---- A session's record by its parts. */

/* The value of x0 to x30 or sp; 0 for any other number. Before it is branched on or shown, ask for its taint too, or for
   milestarling_known in its place. */
MILESTARLING_MUST_USE
static inline uint64_t milestarling_value(const struct milestarling_session *session, uint32_t number)
{
    return number < MILESTARLING_REGISTERS ? session->value[number] : 0;
}

/* Which bytes of x0 to x30 or sp are tainted, 0 or 1 each; none for any other number. */
MILESTARLING_MUST_USE
static inline struct milestarling_taint milestarling_taint_of(const struct milestarling_session *session, uint32_t number)
{
    const struct milestarling_taint none = MILESTARLING_TAINT_NONE;
    return number < MILESTARLING_REGISTERS ? milestarling_taint_union(session->value_taint[number], none) : none;
}

/* Whether any byte of x0 to x30 or sp is tainted; 0 for any other number. */
MILESTARLING_MUST_USE
static inline int milestarling_tainted(const struct milestarling_session *session, uint32_t number)
{
    return milestarling_taint_of(session, number).bytes != 0;
}

/*
 * The value of x0 to x30 or sp where no byte of it is tainted: one that a host may branch on, show or take for an address. Returns
 * 1 and puts it into *value; or 0 where a byte is tainted or there is no such register, and *value stays as it was.
 */
MILESTARLING_MUST_USE
static inline int milestarling_known(const struct milestarling_session *session, uint32_t number, uint64_t *value)
{
    if (number >= MILESTARLING_REGISTERS || milestarling_tainted(session, number))
        return 0;
    *value = session->value[number];
    return 1;
}

/* Opens the monitor, whatever it watches: after a write that no step of a session did. */
static inline void milestarling_open(struct milestarling_session *session)
{
    *session = milestarling_opened(*session);
}

/* Opens the monitor if another session's step has stored to what it watches. The reply is that step's, refused or not. */
static inline void milestarling_observe_step(struct milestarling_session *session, struct milestarling_step_reply reply)
{
    *session = milestarling_observed(*session, reply.code, reply.address, reply.status);
}

/* Opens the monitor if a write of the host's own, of so many bytes at an address, was to what it watches. */
static inline void milestarling_observe_write(struct milestarling_session *session, uint64_t address, size_t length)
{
    *session = milestarling_observed(*session, MILESTARLING_STORE_CODE + length, address, 0);
}

/* ---- Vector registers by their parts. */

/* A vector register, each byte of whose taint is 0 or 1; 0 and not tainted for a number above 31. */
MILESTARLING_MUST_USE
static inline struct milestarling_vector_register milestarling_vectors_get(
    const struct milestarling_vectors *vectors, uint32_t number)
{
    struct milestarling_vector_register found = milestarling_vector(number, vectors->value, vectors->taint);
    found.taint_low = milestarling_taint_union(found.taint_low, MILESTARLING_TAINT_NONE);
    found.taint_high = milestarling_taint_union(found.taint_high, MILESTARLING_TAINT_NONE);
    return found;
}

/* Whether any byte of a vector register is tainted; 0 for a number above 31. */
MILESTARLING_MUST_USE
static inline int milestarling_vectors_tainted(const struct milestarling_vectors *vectors, uint32_t number)
{
    const struct milestarling_vector_register found = milestarling_vectors_get(vectors, number);
    return (found.taint_low.bytes | found.taint_high.bytes) != 0;
}

/* milestarling_known of a vector register, whose low half comes first. */
MILESTARLING_MUST_USE
static inline int milestarling_vectors_known(const struct milestarling_vectors *vectors, uint32_t number, uint64_t halves[2])
{
    if (number >= MILESTARLING_VECTORS || milestarling_vectors_tainted(vectors, number))
        return 0;
    halves[0] = vectors->value[number][0];
    halves[1] = vectors->value[number][1];
    return 1;
}

/* Sets a vector register, with its taint as it is given. A number above 31 changes nothing. */
static inline void milestarling_vectors_set(
    struct milestarling_vectors *vectors, uint32_t number, struct milestarling_vector_register given)
{
    milestarling_set_vector(
        vectors->value, vectors->taint, number, given.low, given.high, given.taint_low, given.taint_high);
}

/* ---- The same run and step over structs for memory and vector registers. One of zeros, {0} in C and {} in C++, is memory of
   no bytes. */

/* Memory, with a taint byte for each of its bytes and its place: the address of its first byte, and how many of its
   first bytes aren't stored to. Another number of taint bytes than of bytes is answer 1. With length 0 the pointer to the
   bytes may be null, and with taint_length 0 that to the taint bytes. */
struct milestarling_memory {
    uint8_t *bytes;
    size_t length;
    uint8_t *taint;
    size_t taint_length;
    uint64_t origin;
    uint64_t readonly;
};

/* The answer to a host that reads or writes so many bytes at an address of memory: 0; 1 where there isn't a taint byte for each byte
   of memory; or 7 where not all of them have a place. No bytes have a place anywhere. */
MILESTARLING_MUST_USE
static inline uint64_t milestarling_memory_reaches(struct milestarling_memory memory, uint64_t address, size_t length)
{
    const uint64_t place = address - memory.origin;
    if (memory.taint_length != memory.length)
        return MILESTARLING_BAD_WINDOW;
    if (length == 0 || (address >= memory.origin && place < memory.length && length <= memory.length - place))
        return MILESTARLING_DONE;
    return MILESTARLING_OUT_OF_WINDOW;
}

/*
 * Puts bytes at an address of memory, all of them tainted or, with 0, none. It is the host's call, before a run or between two: the
 * read-only part may be filled too, and the monitor of each session in this memory has to observe it, by
 * milestarling_observe_write, or to be opened. Answers 0, 1 or 7, as milestarling_memory_reaches; nothing is changed with 1 and 7.
 * With length 0 the pointer may be null.
 */
MILESTARLING_MUST_USE
static inline uint64_t milestarling_memory_write(
    struct milestarling_memory memory, uint64_t address, const uint8_t *bytes, size_t length, int tainted)
{
    const uint64_t answer = milestarling_memory_reaches(memory, address, length);
    const uint64_t place = address - memory.origin;
    if (answer == MILESTARLING_DONE && length != 0) {
        memcpy(memory.bytes + place, bytes, length);
        memset(memory.taint + place, tainted != 0, length);
    }
    return answer;
}

/*
 * Copies bytes at an address of memory to the start of one buffer, and a taint byte for each, 0 or 1, to that of another. A byte
 * whose taint is 1 is neither branched on nor shown. Answers 0, 1 or 7 likewise; nothing is changed with 1 and 7. With length 0 both
 * pointers may be null.
 */
MILESTARLING_MUST_USE
static inline uint64_t milestarling_memory_read(
    struct milestarling_memory memory, uint64_t address, uint8_t *bytes, uint8_t *taint, size_t length)
{
    const uint64_t answer = milestarling_memory_reaches(memory, address, length);
    const uint64_t place = address - memory.origin;
    size_t i;
    for (i = 0; answer == MILESTARLING_DONE && i < length; i++) {
        bytes[i] = memory.bytes[place + i];
        taint[i] = memory.taint[place + i] != 0;
    }
    return answer;
}

/* What a step that was done did: the code, as in the trace, and the address. */
struct milestarling_access {
    uint64_t code;
    uint64_t address;
};

/*
 * milestarling_run on memory, on a session, which is left as the run returns it, and on its vector registers. The trace has
 * trace_length accesses, and there are statuses_length statuses; they and the words may be null where their length is 0.
 */
MILESTARLING_MUST_USE
static inline struct milestarling_run_reply milestarling_session_run(
    struct milestarling_memory memory, struct milestarling_session *session, struct milestarling_vectors *vectors,
    const uint32_t *words, size_t words_length,
    struct milestarling_access *trace, size_t trace_length,
    uint8_t *statuses, size_t statuses_length)
{
    const uint32_t no_words[1] = {0};
    uint64_t no_trace[1] = {0};
    uint8_t no_bytes[1] = {0}, no_taint[1] = {0}, no_statuses[1] = {0};
    struct milestarling_run_reply reply = milestarling_run(
        words_length != 0 ? words : no_words, words_length,
        *session, vectors->value, vectors->taint, memory.origin, memory.readonly,
        memory.length != 0 ? memory.bytes : no_bytes, memory.length,
        memory.taint_length != 0 ? memory.taint : no_taint, memory.taint_length,
        trace_length != 0 ? &trace->code : no_trace, MILESTARLING_TRACE_NUMBERS * trace_length,
        statuses_length != 0 ? statuses : no_statuses, statuses_length);
    *session = reply.session;
    return reply;
}

/* milestarling_step on memory, on a session and on its vector registers. */
MILESTARLING_MUST_USE
static inline struct milestarling_step_reply milestarling_session_step(
    struct milestarling_memory memory, struct milestarling_session *session, struct milestarling_vectors *vectors, uint32_t word)
{
    uint8_t no_bytes[1] = {0}, no_taint[1] = {0};
    return milestarling_step(
        word, session, vectors->value, vectors->taint, memory.origin, memory.readonly,
        memory.length != 0 ? memory.bytes : no_bytes, memory.length,
        memory.taint_length != 0 ? memory.taint : no_taint, memory.taint_length);
}

/*
 * milestarling_session_step on whichever of several regions of memory has the address, the first of them where several have it. The
 * word is first tried with no memory at all, which finds out the address and changes nothing, and then on that region. So an access
 * that runs on from one region into the next is in neither, and is refused with 7, and what is wrong with a region is answered with 1
 * only where it is that region's turn. With regions_length 0 the pointer may be null.
 */
MILESTARLING_MUST_USE
static inline struct milestarling_step_reply milestarling_session_step_in(
    const struct milestarling_memory *regions, size_t regions_length,
    struct milestarling_session *session, struct milestarling_vectors *vectors, uint32_t word)
{
    uint8_t no_bytes[1] = {0}, no_taint[1] = {0};
    const struct milestarling_step_reply tried =
        milestarling_step(word, session, vectors->value, vectors->taint, 0, 0, no_bytes, 0, no_taint, 0);
    size_t i;
    for (i = 0; tried.answer == MILESTARLING_OUT_OF_WINDOW && i < regions_length; i++)
        if (tried.address >= regions[i].origin && tried.address - regions[i].origin < regions[i].length)
            return milestarling_session_step(regions[i], session, vectors, word);
    return tried;
}

/* milestarling_import into memory. */
MILESTARLING_MUST_USE
static inline struct milestarling_import_reply milestarling_memory_import(
    struct milestarling_memory memory, const uint8_t *text, size_t text_length)
{
    const uint8_t no_text[1] = {0};
    uint8_t no_bytes[1] = {0}, no_taint[1] = {0};
    return milestarling_import(
        text_length != 0 ? text : no_text, text_length, memory.origin, memory.readonly,
        memory.length != 0 ? memory.bytes : no_bytes, memory.length,
        memory.taint_length != 0 ? memory.taint : no_taint, memory.taint_length);
}

/* Opens the monitor if another session's run has stored to what it watches: the trace and the statuses are that run's, and
   so many of them are looked at as it has done steps, also where it was refused then. */
static inline void milestarling_observe_run(
    struct milestarling_session *session, const struct milestarling_access *trace, const uint8_t *statuses, uint64_t steps)
{
    uint64_t i;
    for (i = 0; i < steps && session->monitor_size != 0; i++)
        *session = milestarling_observed(*session, trace[i].code, trace[i].address, statuses[i]);
}

/* ---- Two plugins that share memory, over structs. */

/* Memory that two plugins share, as struct milestarling_memory has it, and without a read-only part. */
struct milestarling_shared_memory {
    uint8_t *bytes;
    size_t length;
    uint8_t *taint;
    size_t taint_length;
    uint64_t origin;
};

/* The same memory as the host reads and writes it itself. */
MILESTARLING_MUST_USE
static inline struct milestarling_memory milestarling_shared_whole(struct milestarling_shared_memory shared)
{
    struct milestarling_memory memory;
    memory.bytes = shared.bytes;
    memory.length = shared.length;
    memory.taint = shared.taint;
    memory.taint_length = shared.taint_length;
    memory.origin = shared.origin;
    memory.readonly = 0;
    return memory;
}

/* The ranges as the other plugin has them: own and other exchanged. */
MILESTARLING_MUST_USE
static inline struct milestarling_ranges milestarling_ranges_swapped(struct milestarling_ranges ranges)
{
    const struct milestarling_range own = ranges.own;
    ranges.own = ranges.other;
    ranges.other = own;
    return ranges;
}

/*
 * milestarling_turn on memory, on the session of the plugin whose turn it is, which is left as the turn returns it, and on its
 * vector registers. The ranges are this plugin's, and milestarling_ranges_swapped of them the other's. What has length 0 may be
 * null.
 */
MILESTARLING_MUST_USE
static inline struct milestarling_run_reply milestarling_session_turn(
    struct milestarling_shared_memory memory, struct milestarling_ranges ranges,
    struct milestarling_session *session, struct milestarling_vectors *vectors,
    const uint32_t *words, size_t words_length,
    struct milestarling_access *trace, size_t trace_length,
    uint8_t *statuses, size_t statuses_length)
{
    const uint32_t no_words[1] = {0};
    uint64_t no_trace[1] = {0};
    uint8_t no_bytes[1] = {0}, no_taint[1] = {0}, no_statuses[1] = {0};
    struct milestarling_run_reply reply = milestarling_turn(
        words_length != 0 ? words : no_words, words_length,
        *session, vectors->value, vectors->taint, memory.origin, ranges,
        memory.length != 0 ? memory.bytes : no_bytes, memory.length,
        memory.taint_length != 0 ? memory.taint : no_taint, memory.taint_length,
        trace_length != 0 ? &trace->code : no_trace, MILESTARLING_TRACE_NUMBERS * trace_length,
        statuses_length != 0 ? statuses : no_statuses, statuses_length);
    *session = reply.session;
    return reply;
}

/* ---- Why a byte is tainted, over structs. */

/* A byte whose taint is asked about. */
struct milestarling_place {
    uint64_t kind;   /* enum milestarling_place_kind */
    uint64_t number; /* of the register, or the address */
    uint64_t byte;   /* of the register, from the lowest */
};

/* A byte of x0 to x30 or sp, of v0 to v31, and of memory. One that there isn't is refused when it is asked about, with 11 or 7. */
MILESTARLING_MUST_USE
static inline struct milestarling_place milestarling_place_register(uint64_t number, uint64_t byte)
{
    struct milestarling_place place;
    place.kind = MILESTARLING_PLACE_REGISTER;
    place.number = number;
    place.byte = byte;
    return place;
}

MILESTARLING_MUST_USE
static inline struct milestarling_place milestarling_place_vector(uint64_t number, uint64_t byte)
{
    struct milestarling_place place = milestarling_place_register(number, byte);
    place.kind = MILESTARLING_PLACE_VECTOR;
    return place;
}

MILESTARLING_MUST_USE
static inline struct milestarling_place milestarling_place_memory(uint64_t address)
{
    struct milestarling_place place = milestarling_place_register(address, 0);
    place.kind = MILESTARLING_PLACE_MEMORY;
    return place;
}

/* One link, as milestarling_why writes its three numbers. */
struct milestarling_link {
    uint64_t kind;   /* enum milestarling_place_kind */
    uint64_t number; /* 16 times the register plus the byte, or the address */
    uint64_t step;   /* the step that tainted it plus 1, by words[step - 1], or 0 for the start */
};

/* The register of a link, 0 to 31, of either kind; 0 for a byte of memory, whose address is the link's number. */
MILESTARLING_MUST_USE
static inline uint64_t milestarling_link_register(struct milestarling_link link)
{
    return link.kind == MILESTARLING_PLACE_MEMORY ? 0 : link.number / MILESTARLING_LINK_BYTES;
}

/* The byte of that register, 0 to 7, or to 15 of a vector register; 0 for a byte of memory. */
MILESTARLING_MUST_USE
static inline uint64_t milestarling_link_byte(struct milestarling_link link)
{
    return link.kind == MILESTARLING_PLACE_MEMORY ? 0 : link.number % MILESTARLING_LINK_BYTES;
}

/* What a run started with: the session and its vector registers, of which only the taints are looked at, the taint bytes of
   memory, and memory's place and length. The run changes the first three, so that the host points to copies from before it. */
struct milestarling_start {
    const struct milestarling_session *session;
    const struct milestarling_vectors *vectors;
    const uint8_t *taint;
    size_t taint_length;
    uint64_t origin;
    uint64_t readonly;
    uint64_t memory_length;
};

/* What it was handed and has left: words, trace and statuses, and the steps of its reply. */
struct milestarling_history {
    const uint32_t *words;
    size_t words_length;
    const struct milestarling_access *trace;
    size_t trace_length;
    const uint8_t *statuses;
    size_t statuses_length;
    uint64_t steps;
};

/*
 * milestarling_why of a run, by its start and its history. There is room for links_length links, of which there are never more
 * than step + 1. What has length 0 may be null, but neither the session nor the vector registers.
 */
MILESTARLING_MUST_USE
static inline struct milestarling_why_reply milestarling_session_why(
    struct milestarling_start start, struct milestarling_history history,
    uint64_t step, struct milestarling_place place,
    struct milestarling_link *links, size_t links_length)
{
    const uint32_t no_words[1] = {0};
    const uint64_t no_trace[1] = {0};
    const uint8_t no_statuses[1] = {0}, no_taint[1] = {0};
    uint64_t no_links[1] = {0};
    return milestarling_why(
        history.words_length != 0 ? history.words : no_words, history.words_length,
        history.trace_length != 0 ? &history.trace->code : no_trace, MILESTARLING_TRACE_NUMBERS * history.trace_length,
        history.statuses_length != 0 ? history.statuses : no_statuses, history.statuses_length,
        history.steps, start.session->value_taint, start.vectors->taint,
        start.taint_length != 0 ? start.taint : no_taint, start.taint_length,
        start.origin, start.readonly, start.memory_length,
        step, place.kind, place.number, place.byte,
        links_length != 0 ? &links->kind : no_links, MILESTARLING_LINK_NUMBERS * links_length);
}

/* An answer in words, those of docs/ANSWERS.md. */
MILESTARLING_MUST_USE
static inline const char *milestarling_answer_text(uint64_t answer)
{
    switch (answer) {
    case MILESTARLING_DONE:
        return "done";
    case MILESTARLING_BAD_WINDOW:
        return "the memory window, the number of its taint bytes or the program counter is wrong";
    case MILESTARLING_NOT_IN_SET:
        return "the word is no load or store that this machine takes";
    case MILESTARLING_UNDEFINED:
        return "the word is an undefined load or store";
    case MILESTARLING_UNPREDICTABLE:
        return "the word names the same register twice where it must not";
    case MILESTARLING_TAINTED_ADDRESS:
        return "the address would come from a secret value";
    case MILESTARLING_MISALIGNED:
        return "SP as the base isn't a multiple of 16, the exclusive access's address isn't a multiple of its size, or the "
               "ordered access crosses the border of a 16-byte block";
    case MILESTARLING_OUT_OF_WINDOW:
        return "the access isn't wholly inside the memory window";
    case MILESTARLING_READ_ONLY:
        return "the store touches read-only memory";
    case MILESTARLING_NO_SUCH_TEXT:
        return "the text isn't the line of any load or store";
    case MILESTARLING_NO_ROOM:
        return "the buffer, the trace or the list of statuses or links lent is too short";
    case MILESTARLING_NO_SUCH_INSTRUCTION:
        return "no word has this instruction, or there is no such register or byte";
    case MILESTARLING_NOT_ALLOWED:
        return "the access is neither in the plugin's own range nor, for a load, in the shared one";
    case MILESTARLING_MALFORMED:
        return "the line isn't one of Intel HEX, stands after the end, or the end is missing";
    case MILESTARLING_BAD_CHECKSUM:
        return "the checksum of the line is wrong";
    case MILESTARLING_BAD_RECORD_TYPE:
        return "the type of the line isn't 00, 01 or 04";
    case MILESTARLING_CLOSED:
        return "the lister is closed, or is said to hold more than three bytes";
    case MILESTARLING_BAD_TRACE:
        return "the words, the trace or the statuses are too short for the steps, or no run leaves them so";
    case MILESTARLING_AFTER_END:
        return "the step asked about lies after the last one";
    default:
        return "this number is no answer's";
    }
}

#ifdef __cplusplus
}
#endif

#endif
