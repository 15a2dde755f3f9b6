/*
 * Rescue of damaged listings, over the library, held against answers that were worked out by hand from document 02: a line of each
 * kind, rooms that just suffice and that are one byte short, and a second pass.
 */
#include <stdio.h>
#include <stdlib.h>
#include <string.h>

#include "milestarling.h"

enum { ROOM = 1024 };

#define LDURB "385ff020\tldurb w0, [x1, #-1]\t0\n"
#define ADD "91000000\t-\t2\n"
#define LDR "f8408421\tldr x1, [x1], #8\t4\n"
#define PRFUM "f8800020\tprfum pldl1keep, [x1]\t0\n"

/* What stands in a line, what is put out for it, and what is reported. */
struct rescued {
    const char *line, *put, *fate;
};

static const struct rescued kinds[] = {
    {LDURB, LDURB, "kept"},
    {ADD, ADD, "kept"},
    {LDR, LDR, "kept"},
    /* the digits are damaged; the third field may be anything */
    {"85ff020\tldurb w0, [x1, #-1]\t0\n", LDURB, "restored"},
    {"385FF020\tldurb w0, [x1, #-1]\t\n", LDURB, "restored"},
    {"\tldr x1, [x1], #8\t0\n", LDR, "restored"},
    {"short\tldr x1, [x1], #8\tanything\n", LDR, "restored"},
    /* eight digits, and another text, answer or end */
    {"385ff021\tldurb w0, [x1, #-1]\t0\n", "", "dropped"},
    {"385ff020\tldurb w0, [x1, #-1]\t4\n", "", "dropped"},
    {"385ff020\tldurb w0, [x1, #-1]\t0\r\n", "", "dropped"},
    {"91000000\t-\t3\n", "", "dropped"},
    /* no text, or not two tabs */
    {"1000000\t-\t2\n", "", "dropped"},
    {"85ff020\tldurb w0, [x1, #-1]\n", "", "dropped"},
    {"85ff020\tldurb w0, [x1, #-1]\t0\t\n", "", "dropped"},
    {"85ff020\tldurb  w0, [x1, #-1]\t0\n", "", "dropped"},
    {"short\t-\t1\n", "", "dropped"},
    {"\n", "", "dropped"},
    /* a line of before the hints had names */
    {"8800020\tprfum #0, [x1]\t0\n", "", "dropped"},
    {"8800020\tprfum pldl1keep, [x1]\t0\n", PRFUM, "restored"},
    /* the last, which lacks its newline */
    {"f8800020\tprfum pldl1keep, [x1]\t0", PRFUM, "kept"},
};

static char input[ROOM], put[ROOM], told[ROOM];
static uint8_t output[ROOM], report[ROOM], untouched[ROOM];

static void hold(int holds, const char *what)
{
    if (!holds) {
        printf("doesn't hold: %s\n", what);
        exit(1);
    }
}

/* Rescues into buffers of so many bytes, which hold what is expected of them and are untouched behind it. */
static void rescued(const char *from, size_t room, size_t space, uint64_t answer, const char *expected, const char *expected_report)
{
    struct milestarling_rescue_reply reply;
    memset(output, 255, ROOM);
    memset(report, 255, ROOM);
    reply = milestarling_rescue((const uint8_t *)from, strlen(from), output, room, report, space);
    hold(reply.answer == answer, "the answer");
    hold(reply.length == strlen(expected) && reply.report_length == strlen(expected_report), "the lengths");
    hold(memcmp(output, expected, reply.length) == 0, "what is put out");
    hold(memcmp(report, expected_report, reply.report_length) == 0, "the report");
    hold(memcmp(output + reply.length, untouched, ROOM - reply.length) == 0, "the rest of the output");
    hold(memcmp(report + reply.report_length, untouched, ROOM - reply.report_length) == 0, "the rest of the report");
}

int main(void)
{
    const size_t count = sizeof kinds / sizeof *kinds;
    size_t i, lines, room, space;
    char row[32], kept[ROOM] = "";
    memset(untouched, 255, ROOM);
    for (i = 0; i < count; i++) {
        strcat(input, kinds[i].line);
        strcat(put, kinds[i].put);
        sprintf(row, "%d\t%s\n", (int)i + 1, kinds[i].fate);
        strcat(told, row);
    }
    room = strlen(put);
    space = strlen(told);
    lines = milestarling_rescue_lines((const uint8_t *)input, strlen(input));
    hold(lines == count, "the count of lines");
    rescued(input, room, space, MILESTARLING_DONE, put, told);
    rescued(input, room - 1, space, MILESTARLING_NO_ROOM, "", "");
    rescued(input, room, space - 1, MILESTARLING_NO_ROOM, "", "");
    rescued(input, 0, 0, MILESTARLING_NO_ROOM, "", "");
    hold(strlen(input) + lines * MILESTARLING_RESCUE_GAIN <= ROOM && lines * MILESTARLING_REPORT_LINE_MAX <= ROOM, "the rooms of this file");
    rescued(input, strlen(input) + lines * MILESTARLING_RESCUE_GAIN, lines * MILESTARLING_REPORT_LINE_MAX, MILESTARLING_DONE, put, told);
    rescued("", 0, 0, MILESTARLING_DONE, "", "");
    rescued("\n", 0, 10, MILESTARLING_DONE, "", "1\tdropped\n");
    hold(milestarling_rescue_lines(output, 0) == 0, "no lines");

    /* The second pass keeps every line. */
    lines = milestarling_rescue_lines((const uint8_t *)put, room);
    for (i = 0; i < lines; i++) {
        sprintf(row, "%d\tkept\n", (int)i + 1);
        strcat(kept, row);
    }
    rescued(put, room, strlen(kept), MILESTARLING_DONE, put, kept);
    printf("rescue: %d lines, %d of them put out, and each again\n", (int)count, (int)lines);
    return 0;
}
