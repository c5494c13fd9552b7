// Refuses the growth of this number, for the program that it is loaded into: REFUSE=N in the environment.
// Growths are calls for memory, counted from 1. Where N is 0, none is refused; the count is written to the file COUNT.
#define _GNU_SOURCE
#include <dlfcn.h>
#include <errno.h>
#include <stdio.h>
#include <stdlib.h>

static long number;
static long refused = -1;

static int refuses(void) {
    if (refused < 0) {
        const char *word = getenv("REFUSE");
        refused = word ? atol(word) : 0;
    }
    number++;
    return number == refused;
}

static void *refuse(void) {
    errno = ENOMEM;
    return NULL;
}

void *malloc(size_t size) {
    static void *(*real)(size_t);
    if (!real) real = dlsym(RTLD_NEXT, "malloc");
    return refuses() ? refuse() : real(size);
}

void *realloc(void *old, size_t size) {
    static void *(*real)(void *, size_t);
    if (!real) real = dlsym(RTLD_NEXT, "realloc");
    return refuses() ? refuse() : real(old, size);
}

int posix_memalign(void **out, size_t alignment, size_t size) {
    static int (*real)(void **, size_t, size_t);
    if (!real) real = dlsym(RTLD_NEXT, "posix_memalign");
    return refuses() ? ENOMEM : real(out, alignment, size);
}

void *aligned_alloc(size_t alignment, size_t size) {
    static void *(*real)(size_t, size_t);
    if (!real) real = dlsym(RTLD_NEXT, "aligned_alloc");
    return refuses() ? refuse() : real(alignment, size);
}

__attribute__((destructor)) static void tell(void) {
    const char *name = getenv("COUNT");
    FILE *file = name ? fopen(name, "w") : NULL;
    if (file) {
        fprintf(file, "%ld\n", number);
        fclose(file);
    }
}
