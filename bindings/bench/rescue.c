// Times the rescue of a listing beside the listing itself: of the words of an image, again and again.
//
//   rescue IMAGE MIB
//
// The listing has so many MiB. It is rescued as it is, with rooms that always suffice and with rooms that just do, and with the
// first byte of every line eaten, so that each line with a text is restored and every other dropped. What comes is compared with
// the listing, and the best of seven times counts.
#include "../../include/milestarling.h"
#include "measure.h"

enum { ROUNDS = 7 };

struct listing {
    uint8_t *bytes;
    size_t length;
    size_t lines;
};

static void fail(const char *what) {
    fprintf(stderr, "rescue: %s\n", what);
    exit(1);
}

// What is lent is touched once, so that no time is for the system's first look at a page.
static uint8_t *lent(size_t length) {
    uint8_t *bytes = malloc(length + 1);
    if (bytes == NULL)
        fail("no memory");
    memset(bytes, 1, length + 1);
    return bytes;
}

// The image's words, so often that their listing has at least so many bytes.
static struct listing repeated(struct listing image, size_t least) {
    uint8_t *once = lent(image.length / 4 * MILESTARLING_LINE_MAX);
    const struct milestarling_text_reply reply =
        milestarling_list(image.bytes, image.length, once, image.length / 4 * MILESTARLING_LINE_MAX);
    const size_t times = least / reply.length + 1;
    struct listing words = {lent(image.length * times), image.length * times, image.length / 4 * times};
    if (reply.answer != MILESTARLING_DONE)
        fail("the image isn't listed");
    for (size_t i = 0; i < times; i++)
        memcpy(words.bytes + i * image.length, image.bytes, image.length);
    free(once);
    return words;
}

static void said(const char *name, double seconds, size_t lines, size_t bytes) {
    const double each = seconds / (double)lines * 1e9, rate = (double)bytes / seconds / 1e6;
    printf("rescue, %s: %.1f ns a line, %.0f MB/s, %.3f s\n", name, each, rate, seconds);
}

static struct listing listed(struct listing words) {
    const size_t room = words.lines * MILESTARLING_LINE_MAX + 10;
    struct listing made = {lent(room), 0, words.lines};
    double best = 0;
    for (int round = 0; round < ROUNDS; round++) {
        const double began = now();
        const struct milestarling_text_reply reply = milestarling_list(words.bytes, words.length, made.bytes, room);
        const double seconds = now() - began;
        if (reply.answer != MILESTARLING_DONE)
            fail("the words aren't listed");
        made.length = reply.length;
        best = round == 0 || seconds < best ? seconds : best;
    }
    said("the listing itself", best, made.lines, made.length);
    return made;
}

// Rescues a listing into buffers of so many bytes. Where it came back, its bytes are compared.
static struct milestarling_rescue_reply rescued(
    const char *name, struct listing from, size_t room, size_t space, const struct listing *whole) {
    uint8_t *output = lent(room), *report = lent(space);
    struct milestarling_rescue_reply reply = {0, 0, 0};
    double best = 0;
    for (int round = 0; round < ROUNDS; round++) {
        const double began = now();
        reply = milestarling_rescue(from.bytes, from.length, output, room, report, space);
        const double seconds = now() - began;
        if (reply.answer != MILESTARLING_DONE)
            fail(name);
        best = round == 0 || seconds < best ? seconds : best;
    }
    if (whole != NULL && (reply.length != whole->length || memcmp(output, whole->bytes, reply.length) != 0))
        fail("a correct listing is changed");
    said(name, best, from.lines, from.length);
    free(output);
    free(report);
    return reply;
}

// Every line without its first byte.
static struct listing eaten(struct listing from) {
    struct listing damaged = {lent(from.length), 0, from.lines};
    for (size_t i = 0; i < from.length; i++)
        if (i > 0 && from.bytes[i - 1] != '\n')
            damaged.bytes[damaged.length++] = from.bytes[i];
    return damaged;
}

int main(int count, char **arguments) {
    if (count != 3)
        fail("usage: rescue IMAGE MIB");
    struct listing image = {NULL, 0, 0};
    image.bytes = read_file(".", arguments[1], &image.length);
    image.length -= image.length % 4;
    const struct listing words = repeated(image, strtoul(arguments[2], NULL, 10) << 20);
    const struct listing whole = listed(words);
    const size_t room = whole.length + whole.lines * MILESTARLING_RESCUE_GAIN, space = whole.lines * MILESTARLING_REPORT_LINE_MAX;
    const struct milestarling_rescue_reply exact = rescued("kept", whole, room, space, &whole);
    rescued("kept, rooms that just suffice", whole, exact.length, exact.report_length, &whole);
    rescued("first bytes eaten", eaten(whole), room, space, NULL);
    return 0;
}
