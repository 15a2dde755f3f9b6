/*
 * Instructions as numbers, over the library: the line of text that the numbers give, and the bytes and the direction that
 * the line gives, for words of every family; words back from their numbers; and numbers that are no word's.
 */
#include <stdio.h>
#include <string.h>

#include "milestarling.h"

typedef struct milestarling_instruction instruction;

static const char *const scaled_names[16] = {"strb", "ldrb", "ldrsb", "ldrsb", "strh", "ldrh", "ldrsh", "ldrsh",
    "str", "ldr", "ldrsw", "", "str", "ldr", "prfm", ""};
static const char *const unscaled_names[16] = {"sturb", "ldurb", "ldursb", "ldursb", "sturh", "ldurh", "ldursh", "ldursh",
    "stur", "ldur", "ldursw", "", "stur", "ldur", "prfum", ""};
static const char *const ordered_names[16] = {"stlurb", "ldapurb", "ldapursb", "ldapursb", "stlurh", "ldapurh", "ldapursh",
    "ldapursh", "stlur", "ldapur", "ldapursw", "", "stlur", "ldapur", "", ""};
static const char *const pair_names[6] = {"stp", "ldp", "", "ldpsw", "stp", "ldp"};
static const char *const no_allocate_names[6] = {"stnp", "ldnp", "", "", "stnp", "ldnp"};
static const char *const literal_names[4] = {"ldr", "ldr", "ldrsw", "prfm"};
static const char *const exclusive_names[8] = {"stxr", "stlxr", "ldxr", "ldaxr", "", "stlr", "", "ldar"};

static char line[128];

static void put(const char *text) { strcat(line, text); }

static void put_number(long long number)
{
    char digits[32];
    sprintf(digits, "#%lld", number);
    put(digits);
}

static void put_register(uint32_t number, int wide, const char *last)
{
    char name[16];
    if (number == 31)
        put(last);
    else {
        sprintf(name, "%c%u", wide ? 'x' : 'w', (unsigned)number);
        put(name);
    }
}

static void put_data(uint32_t number, int wide) { put_register(number, wide, wide ? "xzr" : "wzr"); }

/* A vector register of 1, 2, 4, 8 or 16 bytes: 31 is one like any other. */
static void put_vector(uint32_t number, uint32_t bytes)
{
    char name[16];
    sprintf(name, "%c%u", bytes == 1 ? 'b' : bytes == 2 ? 'h' : bytes == 4 ? 's' : bytes == 8 ? 'd' : 'q', (unsigned)number);
    put(name);
}

/* The power of two that the bytes of a sized operation are. */
static uint32_t scale(uint32_t operation)
{
    const int quad = operation == MILESTARLING_STORE_VECTOR_QUAD || operation == MILESTARLING_LOAD_VECTOR_QUAD;
    return quad ? 4 : operation / 4 % 4;
}

static void put_hint(uint32_t hint)
{
    static const char *const kinds[3] = {"pld", "pli", "pst"}, *const levels[3] = {"l1", "l2", "l3"};
    if (hint / 8 > 2 || hint / 2 % 4 > 2) {
        put_number(hint);
        return;
    }
    put(kinds[hint / 8]);
    put(levels[hint / 2 % 4]);
    put(hint % 2 ? "strm" : "keep");
}

/* [base, #offset], with what pre and post show. */
static void put_place(const instruction *i, int pre, int post)
{
    put(", [");
    put_register(i->base, 1, "sp");
    if (post)
        put("], ");
    else if (i->offset != 0 || pre)
        put(", ");
    if (post || i->offset != 0 || pre)
        put_number(i->offset);
    if (!post)
        put("]");
    if (pre)
        put("!");
}

static void put_index(const instruction *i)
{
    static const char *const extensions[8] = {"", "", "uxtw", "lsl", "", "", "sxtw", "sxtx"};
    put(", [");
    put_register(i->base, 1, "sp");
    put(", ");
    put_data(i->index, i->option % 2 != 0);
    if (i->option != 3 || i->scaled) {
        put(", ");
        put(extensions[i->option]);
    }
    if (i->scaled) {
        put(" ");
        put_number(scale(i->operation));
    }
    put("]");
}

static void put_sized(const instruction *i, const char *const *names)
{
    const int vector = i->operation >= MILESTARLING_STORE_VECTOR_BYTE;
    /* a vector's load and store have the names of a doubleword's */
    put(names[vector ? MILESTARLING_STORE_DOUBLE + i->operation % 2 : i->operation]);
    put(" ");
    if (vector)
        put_vector(i->target, 1u << scale(i->operation));
    else if (i->operation == MILESTARLING_PREFETCH_HINT)
        put_hint(i->target);
    else
        put_data(i->target, i->operation / 4 == 3 || i->operation % 4 == 2);
    if (i->family == MILESTARLING_REGISTER)
        put_index(i);
    else
        put_place(i, i->family == MILESTARLING_PRE_INDEX, i->family == MILESTARLING_POST_INDEX);
}

static void put_exclusive(const instruction *i)
{
    static const char *const sizes[4] = {"b", "h", "", ""};
    put(exclusive_names[i->operation % 8]);
    put(sizes[i->operation / 8]);
    put(" ");
    if (i->operation % 8 < 2) {
        put_data(i->status, 0);
        put(", ");
    }
    put_data(i->target, i->operation / 8 == 3);
    put_place(i, 0, 0);
}

static void put_pair(const instruction *i)
{
    const int vector = i->operation >= MILESTARLING_STORE_VECTOR_WORDS;
    const uint32_t named = vector ? MILESTARLING_STORE_DOUBLES + i->operation % 2 : i->operation;
    put(i->mode == MILESTARLING_PAIR_NO_ALLOCATE ? no_allocate_names[named] : pair_names[named]);
    put(" ");
    if (vector) {
        put_vector(i->target, 4u << (i->operation / 2 % 4));
        put(", ");
        put_vector(i->second, 4u << (i->operation / 2 % 4));
    } else {
        put_data(i->target, i->operation > 2);
        put(", ");
        put_data(i->second, i->operation > 2);
    }
    put_place(i, i->mode == MILESTARLING_PAIR_PRE, i->mode == MILESTARLING_PAIR_POST);
}

static void put_literal(const instruction *i)
{
    const int vector = i->operation >= MILESTARLING_LITERAL_VECTOR_WORD;
    put(literal_names[vector ? MILESTARLING_LITERAL_DOUBLE : i->operation]);
    put(" ");
    if (vector)
        put_vector(i->target, 4u << i->operation % 4);
    else if (i->operation == MILESTARLING_LITERAL_PREFETCH)
        put_hint(i->target);
    else
        put_data(i->target, i->operation != MILESTARLING_LITERAL_WORD);
    put(", ");
    put_number(i->offset);
}

static void write_line(const instruction *i)
{
    line[0] = 0;
    switch (i->family) {
    case MILESTARLING_LITERAL:
        put_literal(i);
        break;
    case MILESTARLING_PAIR:
        put_pair(i);
        break;
    case MILESTARLING_ORDERED:
        put_sized(i, ordered_names);
        break;
    case MILESTARLING_UNSCALED:
        put_sized(i, unscaled_names);
        break;
    case MILESTARLING_EXCLUSIVE:
        put_exclusive(i);
        break;
    default:
        put_sized(i, scaled_names);
    }
}

/* The direction and the bytes that a line tells: by its first letter, its mnemonic's last, and the data register. */
static uint32_t told_direction(const char *text) { return text[0] == 'p' ? 0 : text[0] == 'l' ? 1 : 2; }

static uint32_t told_bytes(const char *text)
{
    static const char letters[] = "bhsdq";
    const char *space = strchr(text, ' ');
    int pair = space[-1] == 'p' || strncmp(text, "ldpsw", 5) == 0;
    int status = strncmp(text, "stxr", 4) == 0 || strncmp(text, "stlxr", 5) == 0;
    const char *data = status ? strchr(space, ',') + 2 : space + 1;
    const char *vector = strchr(letters, data[0]);
    uint32_t one = vector != NULL ? 1u << (vector - letters) : space[-1] == 'b' ? 1 : space[-1] == 'h' ? 2
        : space[-1] == 'w' || data[0] == 'w' ? 4 : 8;
    return text[0] == 'p' ? 0 : pair ? 2 * one : one;
}

/* The bits that the words of a family have, of which bit 26 is none but in the third and the ninth, and all words. */
static const uint32_t patterns[12][2] = {{0x3b000000, 0x18000000}, {0x3a000000, 0x28000000}, {0x3f200c00, 0x19000000},
    {0x3b200c00, 0x38000000}, {0x3b200c00, 0x38000400}, {0x3b200c00, 0x38000c00}, {0x3b204c00, 0x38204800},
    {0x3b000000, 0x39000000}, {0x3fa07c00, 0x08007c00}, {0x3fff7c00, 0x085f7c00}, {0x3fbffc00, 0x089ffc00}, {0, 0}};

static uint64_t state = 88172645463325252u;

static uint64_t any(void)
{
    state ^= state << 13;
    state ^= state >> 7;
    state ^= state << 17;
    return state;
}

static int fail(uint32_t word, const char *what)
{
    printf("%08x: %s\n", (unsigned)word, what);
    return 1;
}

static int try_word(uint32_t word)
{
    char text[MILESTARLING_TEXT_MAX + 1] = {0};
    const instruction none = {0, 0, 0, 0, 0, 0, 0, 0, 0, 0, 0, 0, 0};
    struct milestarling_text_reply written = milestarling_text(word, (uint8_t *)text, MILESTARLING_TEXT_MAX);
    struct milestarling_decode_reply decoded = milestarling_decode(word);
    struct milestarling_word_reply encoded = milestarling_encode(decoded.instruction);
    uint64_t class = milestarling_classify(word);
    if (written.answer != decoded.answer || (class == 4 ? 0 : class) != decoded.answer)
        return fail(word, "the answers differ");
    if (decoded.answer != MILESTARLING_DONE) {
        if (memcmp(&decoded.instruction, &none, sizeof none) != 0)
            return fail(word, "refused with numbers");
        return encoded.answer == MILESTARLING_NO_SUCH_INSTRUCTION && encoded.word == 0 ? 0 : fail(word, "zeros were encoded");
    }
    write_line(&decoded.instruction);
    if (strcmp(line, text) != 0)
        return fail(word, line);
    if (decoded.instruction.direction != told_direction(text) || decoded.instruction.bytes != told_bytes(text))
        return fail(word, "direction or bytes");
    if (encoded.answer != MILESTARLING_DONE || encoded.word != word)
        return fail(word, "not encoded again");
    return 0;
}

/* One number of a word's is another: either that is refused with 11, or it is another word's, and that has it. */
static int try_other(uint32_t word, unsigned field, uint32_t number)
{
    instruction numbers = milestarling_decode(word).instruction;
    struct milestarling_word_reply encoded;
    instruction again;
    if (field < 12)
        memcpy((char *)&numbers + 4 * field, &number, sizeof number);
    else
        numbers.offset = (int32_t)number;
    encoded = milestarling_encode(numbers);
    if (encoded.answer == MILESTARLING_NO_SUCH_INSTRUCTION)
        return encoded.word == 0 ? 0 : fail(word, "refused with a word");
    again = milestarling_decode((uint32_t)encoded.word).instruction;
    return encoded.answer == MILESTARLING_DONE && memcmp(&again, &numbers, sizeof again) == 0 ? 0 : fail(word, "another record");
}

/* Numbers that are no word's: a change of `stp x29, x30, [sp, #-16]!`, of `stlxrh w2, w0, [x1]`, of `stp q0, q1, [x2]`, of
   `str q0, [x1]` or of `stlur x0, [x1]`. */
static int try_wrong(uint32_t word, unsigned field, uint32_t number)
{
    instruction numbers = milestarling_decode(word).instruction;
    struct milestarling_word_reply encoded;
    memcpy((char *)&numbers + 4 * field, &number, sizeof number);
    encoded = milestarling_encode(numbers);
    return encoded.answer == MILESTARLING_NO_SUCH_INSTRUCTION && encoded.word == 0 ? 0 : fail(word, "wrong numbers were taken");
}

int main(void)
{
    uint32_t i, done = 0;
    int failed = sizeof(instruction) != 56;
    for (i = 0; i < 1u << 20 && !failed; i++) {
        const uint32_t *pattern = patterns[i % 12];
        uint32_t word = ((uint32_t)(any() >> 16) & ~pattern[0]) | pattern[1];
        failed = try_word(word) || try_other(word, (unsigned)(any() >> 20) % 13, (uint32_t)(any() >> 30) % 40);
        done += milestarling_decode(word).answer == MILESTARLING_DONE;
    }
    /* family, operation, direction, bytes; second of a store-exclusive, index, option, scaled, mode; the pair's status */
    failed |= try_wrong(0xa9bf7bfd, 0, 10) || try_wrong(0xa9bf7bfd, 1, 2) || try_wrong(0xa9bf7bfd, 2, 1) || try_wrong(0xa9bf7bfd, 3, 8)
        || try_wrong(0x4802fc20, 5, 1) || try_wrong(0xa9bf7bfd, 7, 1) || try_wrong(0xa9bf7bfd, 8, 3) || try_wrong(0xa9bf7bfd, 9, 1)
        || try_wrong(0x4802fc20, 10, 1) || try_wrong(0xa9bf7bfd, 11, 31) || try_wrong(0xa9bf7bfd, 4, 32) || try_wrong(0x4802fc20, 1, 12);
    /* operation and bytes of vectors: a pair with opc 11, one of sixteen bytes, a size that isn't 00 with opc 10, one of eight
       bytes, and an ordered one, which there isn't */
    failed |= try_wrong(0xad000440, 1, 14) || try_wrong(0xad000440, 3, 16) || try_wrong(0x3d800020, 1, 22) || try_wrong(0x3d800020, 3, 8)
        || try_wrong(0xd9000020, 1, 28);
    printf("%u words of %u were decoded, held against their text, and encoded again\n", (unsigned)done, (unsigned)i);
    return failed;
}
