// What the programs share: reading a file, the clock, and the lines that the benchmark reads.
#include <stdint.h>
#include <stdio.h>
#include <stdlib.h>
#include <string.h>
#include <time.h>

// A measurement ends with the first pass after so long. Its best pass counts.
#define SECONDS 0.1

static inline double now(void) {
    struct timespec time;
    clock_gettime(CLOCK_MONOTONIC, &time);
    return (double)time.tv_sec + (double)time.tv_nsec * 1e-9;
}

static inline void *read_file(const char *directory, const char *name, size_t *length) {
    char path[4096];
    snprintf(path, sizeof path, "%s/%s", directory, name);
    FILE *file = fopen(path, "rb");
    if (!file) {
        perror(path);
        exit(2);
    }
    fseek(file, 0, SEEK_END);
    *length = (size_t)ftell(file);
    rewind(file);
    void *content = malloc(*length ? *length : 1);
    if (!content || fread(content, 1, *length, file) != *length) {
        perror(path);
        exit(2);
    }
    fclose(file);
    return content;
}

// A name, how many were done in the best pass, its time, and a number to compare.
static inline void report(const char *name, double done, double seconds, uint64_t number) {
    printf("%s\t%.0f\t%.9f\t%016llx\n", name, done, seconds, (unsigned long long)number);
    fflush(stdout);
}
