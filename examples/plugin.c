/*
 * A host that runs compiled plugins: it does their arithmetic and branches itself, and leaves every word that touches
 * memory to the library, of which it takes no refusal for its own word. So it has the duty that the header names: it
 * carries taints, byte by byte, through what it computes, and refuses a branch on a tainted value. It knows just the words
 * that a compiler made of examples/plugin/plugin.c.
 *
 *     plugin examples/plugin/compare.bin
 *
 * runs the file with two passwords, and prints what a log would have of each run: the trace, and how it ended.
 */
#include <inttypes.h>
#include <stdio.h>
#include <string.h>

#include "milestarling.h"

enum { LENGTH = 8, GIVEN = 0x1000, KEYED = 0x1008, STORED = 0x1010, STACK = 0x1040, END = 0x7ffffffc, LIMIT = 1000 };

/* The session with its vector registers, and the flags that a branch looks at: Z alone here, and whether it is tainted. The
   words here only load and store vector registers, so that the library carries their taints. */
struct host {
    struct milestarling_session session;
    struct milestarling_vectors vectors;
    int zero, zero_tainted;
};

/* A value with its taint. */
struct value {
    uint64_t bits;
    struct milestarling_taint taint;
};

/* Register 31 is the zero register in all words here but add and sub of a number, where it is SP. */
static struct value get(const struct host *host, unsigned number, int is_sp)
{
    struct value value = {0, MILESTARLING_TAINT_NONE};
    if (number != 31 || is_sp) {
        value.bits = milestarling_value(&host->session, number);
        value.taint = milestarling_taint_of(&host->session, number);
    }
    return value;
}

/* Sets a register to a result of 64 or 32 bits, and with flags those too, which are tainted where any byte is. */
static void put(struct host *host, uint32_t word, struct value result, int flags, int is_sp)
{
    if (!(word >> 31)) {
        result.bits &= 0xffffffff;
        result.taint = milestarling_taint_word(result.taint);
    }
    if (flags) {
        host->zero = result.bits == 0;
        host->zero_tainted = result.taint.bytes != 0;
    }
    if ((word & 31) != 31 || (is_sp && !flags))
        milestarling_set_register(&host->session, word & 31, result.bits, result.taint);
}

/* A sum or a difference: its carries go upwards, and so do taints. */
static struct value sum(struct value a, struct value b, int subtract)
{
    const struct value result = {
        subtract ? a.bits - b.bits : a.bits + b.bits,
        milestarling_taint_carried(milestarling_taint_union(a.taint, b.taint))};
    return result;
}

/* A signed field of a word, times 4. */
static uint64_t offset(uint32_t word, unsigned low, unsigned bits)
{
    uint64_t field = (word >> low) & ((1u << bits) - 1), sign = (uint64_t)1 << (bits - 1);
    return ((field ^ sign) - sign) * 4;
}

/* Does one word that doesn't touch memory, and returns what is wrong, or NULL. */
static const char *compute(struct host *host, uint32_t word)
{
    uint64_t *pc = &host->session.pc;
    unsigned operation = (word >> 29) & 3;
    int flags = operation & 1, subtract = operation & 2;
    const struct value a = get(host, (word >> 5) & 31, 0), b = get(host, (word >> 16) & 31, 0);
    struct value result = {0, milestarling_taint_union(a.taint, b.taint)};
    struct value number = {(word >> 10) & 0xfff, MILESTARLING_TAINT_NONE};
    if ((word & 0x1f00fc00) == 0x0a000000) {            /* and, orr, eor of registers, not shifted: byte by byte */
        result.bits = operation == 0 ? a.bits & b.bits : operation == 1 ? a.bits | b.bits : a.bits ^ b.bits;
        if (operation == 3 || (word & 0x00200000))
            return "a word that this host doesn't know";
        put(host, word, result, 0, 0);
    } else if ((word & 0x1fe0fc00) == 0x0b000000) {     /* add, sub, cmp of registers, not shifted */
        put(host, word, sum(a, b, subtract), flags, 0);
    } else if ((word & 0x1fc00000) == 0x11000000) {     /* add, sub, cmp of a register and a number */
        put(host, word, sum(get(host, (word >> 5) & 31, 1), number, subtract), flags, 1);
    } else if ((word & 0xffff0000) == 0x92400000 && (word & 0xfc00) != 0xfc00) { /* and with the lowest so many bits */
        result.bits = a.bits & (((uint64_t)2 << ((word >> 10) & 63)) - 1);
        result.taint = a.taint;
        put(host, word, result, 0, 1);
    } else if ((word & 0x7fe00000) == 0x52800000) {     /* mov of a number */
        number.bits = (word >> 5) & 0xffff;
        put(host, word, number, 0, 0);
    } else if ((word & 0xff00001e) == 0x54000000) {     /* b.eq, b.ne */
        if (host->zero_tainted)
            return "a branch on a tainted value";
        *pc += host->zero != (int)(word & 1) ? offset(word, 5, 19) : 4;
        return NULL;
    } else if ((word & 0xfffffc1f) == 0xd65f0000) {     /* ret */
        if (a.taint.bytes != 0)
            return "a return to a tainted address";
        *pc = a.bits;
        return NULL;
    } else {
        return "a word that this host doesn't know";
    }
    *pc += 4;
    return NULL;
}

/* Does one word, prints its access if it has one, and returns what is wrong, or NULL. */
static const char *do_word(struct host *host, struct milestarling_memory memory, uint32_t word)
{
    if (!milestarling_touches_memory_inline(word))
        return compute(host, word);
    const struct milestarling_step_reply reply = milestarling_session_step(memory, &host->session, &host->vectors, word);
    if (reply.answer != MILESTARLING_DONE)
        return milestarling_answer_text(reply.answer);
    printf(" %" PRIu64 "@%" PRIx64, reply.code, reply.address);
    return NULL;
}

/* Prints a register as a log may have it: in hexadecimal digits, and where a byte is tainted all sixteen, with stars for it. */
static void show(const struct milestarling_session *session, unsigned number)
{
    const uint64_t value = milestarling_value(session, number), taint = milestarling_taint_of(session, number).bytes;
    if (taint == 0) {
        printf("0x%" PRIx64, value);
        return;
    }
    printf("0x");
    for (int low = 56; low >= 0; low -= 8) {
        if ((taint >> low) & 1)
            printf("**");
        else
            printf("%02" PRIx64, (value >> low) & 0xff);
    }
}

/* Begins a call of a plugin's function, with a password that is given, a doubleword of which the first byte is secret, a
   password that is stored, and a stack. */
static void begin(struct host *host, uint8_t *bytes, uint8_t *taint, const char *password)
{
    memset(host, 0, sizeof *host);
    memcpy(bytes, password, LENGTH);
    bytes[KEYED - GIVEN] = (uint8_t)password[0];
    bytes[KEYED - GIVEN + 1] = 3;
    memset(taint, 1, LENGTH + 1);
    memcpy(bytes + (STORED - GIVEN), "sesame42", LENGTH);
    memset(taint + (STORED - GIVEN), 1, LENGTH);
    milestarling_set_register(&host->session, 0, GIVEN, MILESTARLING_TAINT_NONE);
    milestarling_set_register(&host->session, 1, STORED, MILESTARLING_TAINT_NONE);
    milestarling_set_register(&host->session, 2, LENGTH, MILESTARLING_TAINT_NONE);
    milestarling_set_register(&host->session, 30, END, MILESTARLING_TAINT_NONE);
    milestarling_set_register(&host->session, MILESTARLING_SP, STACK, MILESTARLING_TAINT_NONE);
}

/* Runs a plugin's words until it returns, and prints the trace. The words are copied out of the image one by one. */
static void run(const uint8_t *image, size_t size, const char *password)
{
    uint8_t bytes[STACK - GIVEN] = {0}, taint[STACK - GIVEN] = {0};
    const struct milestarling_memory memory = {
        .bytes = bytes, .length = sizeof bytes, .taint = taint, .taint_length = sizeof taint, .origin = GIVEN};
    struct host host;
    begin(&host, bytes, taint, password);
    for (int i = 0; i < LIMIT; i++) {
        uint64_t pc = host.session.pc;
        if (pc == END) {
            printf(" returned, x0 is ");
            show(&host.session, 0);
            printf("\n");
            return;
        }
        if (pc % 4 != 0 || size < 4 || pc > size - 4) {
            printf(" no word at %" PRIu64 "\n", pc);
            return;
        }
        uint32_t word = image[pc] | (uint32_t)image[pc + 1] << 8 | (uint32_t)image[pc + 2] << 16 | (uint32_t)image[pc + 3] << 24;
        const char *refused = do_word(&host, memory, word);
        if (refused != NULL) {
            printf(" refused at %" PRIx64 ": %s\n", pc, refused);
            return;
        }
    }
    printf(" more than %d words\n", LIMIT);
}

int main(int count, char **names)
{
    for (int i = 1; i < count; i++) {
        uint8_t image[4096];
        FILE *file = fopen(names[i], "rb");
        size_t size = file == NULL ? 0 : fread(image, 1, sizeof image, file);
        if (file == NULL || ferror(file)) {
            perror(names[i]);
            return 1;
        }
        fclose(file);
        const char *name = strrchr(names[i], '/');
        for (int other = 0; other < 2; other++) {
            printf("%s:", name == NULL ? names[i] : name + 1);
            run(image, size, other ? "open1234" : "sesame42");
        }
    }
    return 0;
}
