/*
 * Lists a plugin that comes in fragments, each of which ends inside a word, and shows what a call refuses.
 */
#include <inttypes.h>
#include <stdio.h>

#include "milestarling.h"

/* 01's example of a listing: three words, and a byte left over. */
static const uint8_t image[13] = {
    0x20, 0xf0, 0x5f, 0x38, 0x00, 0x00, 0x00, 0x91, 0x21, 0x84, 0x40, 0xf8, 0xff,
};

/* Where each fragment ends; the third is empty. */
static const size_t ends[] = {3, 9, 9, 10, 13};

/* What a call wrote, and the lister that it left. */
static struct milestarling_lister show(const char *call, struct milestarling_lister_reply reply, const uint8_t *output)
{
    struct milestarling_lister lister = reply.lister;
    printf("%s: answer %" PRIu64 ", length %" PRIu64 ", holds", call, reply.answer, reply.length);
    const uint8_t held[3] = {lister.first, lister.second, lister.third};
    for (int i = 0; i < lister.count && i < 3; i++)
        printf(" %02x", held[i]);
    printf("%s\n", lister.closed ? ", closed" : "");
    fwrite(output, 1, (size_t)reply.length, stdout);
    return lister;
}

int main(void)
{
    struct milestarling_lister lister = {0};
    uint8_t output[4 * MILESTARLING_LINE_MAX];
    size_t start = 0;
    for (size_t i = 0; i < sizeof ends / sizeof ends[0]; i++) {
        size_t length = ends[i] - start;
        /* Too little room for a line changes nothing, so that the same fragment can be handed in again. */
        struct milestarling_lister_reply tried = milestarling_lister_push(lister, image + start, length, output, 8);
        if (tried.answer == MILESTARLING_NO_ROOM)
            lister = show("push into 8 bytes", tried, output);
        lister = show("push", milestarling_lister_push(lister, image + start, length, output, sizeof output), output);
        start = ends[i];
    }
    lister = show("close into 9 bytes", milestarling_lister_close(lister, output, 9), output);
    lister = show("close", milestarling_lister_close(lister, output, 10), output);
    lister = show("close again", milestarling_lister_close(lister, output, 0), output);
    lister = show("push", milestarling_lister_push(lister, image, sizeof image, output, sizeof output), output);

    struct milestarling_lister four = {1, 2, 3, 4, 0};
    show("push with four bytes over", milestarling_lister_push(four, image, 0, output, 0), output);
    return 0;
}
