/* For bench/library.py: library COMMAND ROUNDS FILE.. does a command of the library so often, `work` with a number and a count in the place
 * of files, and prints the code, the bytes that are printed, and the least and the mean processor time of a call in microseconds. */
#define _POSIX_C_SOURCE 200809L
#include "ninelace.h"
#include <stdio.h>
#include <stdlib.h>
#include <string.h>
#include <time.h>

#define ROOM (1 << 26)

typedef struct {
    uint8_t *at;
    size_t len;
} bytes;

static bytes read_file(const char *name) {
    FILE *file = fopen(name, "rb");
    if (!file || fseek(file, 0, SEEK_END)) exit(100);
    bytes read = { NULL, (size_t)ftell(file) };
    rewind(file);
    read.at = malloc(read.len + 1);
    if (!read.at || fread(read.at, 1, read.len, file) != read.len) exit(100);
    fclose(file);
    return read;
}

static double now(void) {
    struct timespec at;
    clock_gettime(CLOCK_PROCESS_CPUTIME_ID, &at);
    return 1e6 * (double)at.tv_sec + 1e-3 * (double)at.tv_nsec;
}

int main(int argc, char **argv) {
    if (argc < 5) return 100;
    int is_work = !strcmp(argv[1], "work"), rounds = atoi(argv[2]);
    bytes given[3] = { { NULL, 0 } };
    for (int i = 0; !is_work && i < argc - 3 && i < 3; i++) given[i] = read_file(argv[3 + i]);
    uint8_t *into = malloc(ROOM), code = 100;
    if (!into) return 100;
    ninelace_sizes sizes = { 0, 0, 0 };
    double least = 1e300, start = now(), last = start;
    for (int round = 0; round < rounds; round++) {
        if (is_work)
            code = ninelace_work(strtoull(argv[3], NULL, 10), (uint32_t)strtoul(argv[4], NULL, 10), into, ROOM, &sizes);
        else
            code = ninelace_fund(given[0].at, given[0].len, given[1].at, given[1].len, given[2].at, given[2].len, into, ROOM, &sizes);
        double ended = now();
        if (ended - last < least) least = ended - last;
        last = ended;
    }
    printf("%d %zu %.1f %.1f\n", code, sizes.printed, least, (last - start) / rounds);
    return 0;
}
