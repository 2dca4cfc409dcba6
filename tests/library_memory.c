/* For tests/library.py: library_memory WALLET BLOCKS REQUEST [JOB] funds a payment, or goes on with a packed job, once for each of its
 * allocations, which fails. Each call must end with 7 and have touched nothing, or answer as one that fails nowhere; and it must hold no
 * block when it returns. The heap of the library is here in the place of c/heap.c. Prints how the calls ended. */
#include "ninelace.h"
#include <stdio.h>
#include <stdlib.h>
#include <string.h>

#define ROOM (1 << 20)

typedef struct {
    uint8_t *at;
    size_t len;
} bytes;

typedef struct {
    uint8_t code, into[ROOM];
    ninelace_sizes sizes;
} answer;

struct tried {
    unsigned long long ok;
    void *at;
};

static char nothing;
static long failing, asked, held;

/* Whether this allocation is the one that fails. */
static int fails(void) {
    return ++asked == failing;
}

struct tried rattle_alloc(size_t size, size_t align) {
    void *at = fails() ? NULL : malloc(size ? size : align);
    held += at != NULL;
    return (struct tried){ at != NULL, at ? at : &nothing };
}

struct tried rattle_realloc(void *old, size_t kept, size_t size, size_t align) {
    (void)kept;
    void *at = fails() ? NULL : realloc(old, size ? size : align);
    return (struct tried){ at != NULL, at ? at : &nothing };
}

void rattle_dealloc(void *at) {
    held--;
    free(at);
}

static bytes read_file(const char *name) {
    FILE *file = fopen(name, "rb");
    if (!file || fseek(file, 0, SEEK_END)) exit(100);
    bytes read = { NULL, (size_t)ftell(file) };
    rewind(file);
    read.at = malloc(read.len + 1);
    if (!read.at || fread(read.at, 1, read.len, file) != read.len) exit(100);
    fclose(file);
    return read;
}

/* A call of which the allocation of this number fails, none where it is 0. */
static void call(const bytes *g, int has_job, long number, answer *told) {
    memset(told->into, 0xa5, ROOM);
    told->sizes = (ninelace_sizes){ 9, 9, 9 };
    failing = number;
    asked = 0;
    told->code = has_job ? ninelace_resume(g[0].at, g[0].len, g[1].at, g[1].len, g[2].at, g[2].len, g[3].at, g[3].len, told->into, ROOM, &told->sizes)
                         : ninelace_fund(g[0].at, g[0].len, g[1].at, g[1].len, g[2].at, g[2].len, told->into, ROOM, &told->sizes);
}

static int is_untouched(const answer *told) {
    for (size_t i = 0; i < ROOM; i++)
        if (told->into[i] != 0xa5) return 0;
    return !told->sizes.printed && !told->sizes.log && !told->sizes.job;
}

static int is_same(const answer *told, const answer *due) {
    return told->code == due->code && !memcmp(told->into, due->into, ROOM) && !memcmp(&told->sizes, &due->sizes, sizeof due->sizes);
}

int main(int argc, char **argv) {
    static answer due, told;
    if (argc < 4 || argc > 5) return 100;
    bytes given[4] = { { NULL, 0 } };
    for (int i = 0; i < argc - 1; i++) given[i] = read_file(argv[1 + i]);
    call(given, argc == 5, 0, &due);
    long all = asked, short_of = 0, same = 0, wrong = held != 0;
    for (long number = 1; number <= all; number++) {
        call(given, argc == 5, number, &told);
        if (told.code == NINELACE_MEMORY && is_untouched(&told))
            short_of++;
        else if (is_same(&told, &due))
            same++;
        else
            wrong++;
        wrong += held != 0;
    }
    printf("code %d, %ld allocations: %ld times out of memory, %ld times the same answer, %ld wrong\n", due.code, all, short_of, same, wrong);
    return wrong != 0;
}
