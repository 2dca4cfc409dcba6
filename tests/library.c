/* For tests/library.py: library COMMAND FOLDER FILE.. does a command of the library on these files, or `work` on a number and a count. It
 * writes `printed`, `log` and `job` into the folder, and ends with the code. Its buffers have exactly the bytes that are told, the first
 * none, so that a sanitizer sees each byte that is touched beside them. */
#include "ninelace.h"
#include <stdio.h>
#include <stdlib.h>
#include <string.h>

typedef struct {
    uint8_t *at;
    size_t len;
} bytes;

static void fail(const char *name) {
    perror(name);
    exit(100);
}

static bytes read_file(const char *name) {
    FILE *file = fopen(name, "rb");
    if (!file || fseek(file, 0, SEEK_END)) fail(name);
    bytes read = { NULL, (size_t)ftell(file) };
    rewind(file);
    read.at = malloc(read.len ? read.len : 1);
    if (!read.at || fread(read.at, 1, read.len, file) != read.len) fail(name);
    fclose(file);
    return read;
}

static void write_file(const char *folder, const char *name, const uint8_t *at, size_t len) {
    char path[4096];
    snprintf(path, sizeof path, "%s/%s", folder, name);
    FILE *file = fopen(path, "wb");
    if (!file || fwrite(at, 1, len, file) != len || fclose(file)) fail(path);
}

static uint8_t called(const char *command, const bytes *b, char **words, bytes into, ninelace_sizes *sizes) {
    if (!strcmp(command, "coins")) return ninelace_coins(b[0].at, b[0].len, b[1].at, b[1].len, into.at, into.len, sizes);
    if (!strcmp(command, "fund")) return ninelace_fund(b[0].at, b[0].len, b[1].at, b[1].len, b[2].at, b[2].len, into.at, into.len, sizes);
    if (!strcmp(command, "wide")) return ninelace_wide(b[0].at, b[0].len, b[1].at, b[1].len, b[2].at, b[2].len, into.at, into.len, sizes);
    if (!strcmp(command, "share")) return ninelace_share(b[0].at, b[0].len, b[1].at, b[1].len, b[2].at, b[2].len, into.at, into.len, sizes);
    if (!strcmp(command, "sweep")) return ninelace_sweep(b[0].at, b[0].len, b[1].at, b[1].len, b[2].at, b[2].len, into.at, into.len, sizes);
    if (!strcmp(command, "resume"))
        return ninelace_resume(b[0].at, b[0].len, b[1].at, b[1].len, b[2].at, b[2].len, b[3].at, b[3].len, into.at, into.len, sizes);
    if (!strcmp(command, "settle"))
        return ninelace_settle(b[0].at, b[0].len, b[1].at, b[1].len, b[2].at, b[2].len, b[3].at, b[3].len, into.at, into.len, sizes);
    if (!strcmp(command, "check"))
        return ninelace_check(b[0].at, b[0].len, b[1].at, b[1].len, b[2].at, b[2].len, b[3].at, b[3].len, b[4].at, b[4].len, into.at, into.len, sizes);
    if (!strcmp(command, "work")) return ninelace_work(strtoull(words[0], NULL, 10), (uint32_t)strtoul(words[1], NULL, 10), into.at, into.len, sizes);
    fail(command);
    return 0;
}

int main(int argc, char **argv) {
    if (argc < 5 || argc > 8 || ninelace_abi_version() != NINELACE_ABI_VERSION) return 100;
    bytes given[5] = { { NULL, 0 } };
    int files = strcmp(argv[1], "work") ? argc - 3 : 0;
    for (int i = 0; i < files; i++) given[i] = read_file(argv[3 + i]);
    bytes into = { malloc(1), 0 };
    ninelace_sizes sizes = { 7, 7, 7 };
    uint8_t code;
    while ((code = called(argv[1], given, argv + 3, into, &sizes)) == NINELACE_SHORT) {
        free(into.at);
        into.len = sizes.printed + sizes.log + sizes.job;
        into.at = malloc(into.len);
        if (!into.at) fail("buffer");
    }
    write_file(argv[2], "printed", into.at, sizes.printed);
    write_file(argv[2], "log", into.at + sizes.printed, sizes.log);
    write_file(argv[2], "job", into.at + sizes.printed + sizes.log, sizes.job);
    free(into.at);
    for (int i = 0; i < files; i++) free(given[i].at);
    return code;
}
