/* The heap that the library takes its memory from: the program's own malloc, realloc and free. The library calls these three names;
 * a program with another heap links an object of its own that defines them alike.
 *
 * rattle_alloc(n, a) gives n bytes aligned to a, which is at most what malloc aligns to, and at least a bytes where n is 0. Its answer
 * is a flag, 1 where there was memory and 0 where there was none, and a pointer, which isn't null. */
#include <stddef.h>
#include <stdlib.h>

struct tried {
    unsigned long long ok;
    void *at;
};

static char nothing;

struct tried rattle_alloc(size_t size, size_t align) {
    void *at = malloc(size ? size : align);
    return (struct tried){ at != NULL, at ? at : &nothing };
}

struct tried rattle_realloc(void *old, size_t kept, size_t size, size_t align) {
    (void)kept;
    void *at = realloc(old, size ? size : align);
    return (struct tried){ at != NULL, at ? at : &nothing };
}

void rattle_dealloc(void *at) {
    free(at);
}
