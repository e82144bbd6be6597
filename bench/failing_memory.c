/* Refuses one growth of memory of the program that it is loaded into: the one whose number, from 1, FAIL_AT says; none for 0. Where
 * GROWTHS names a file, the count of growths is written to it at the end. Built and loaded by bench/failing_memory. */
#define _GNU_SOURCE
#include <dlfcn.h>
#include <errno.h>
#include <stdio.h>
#include <stdlib.h>

static unsigned long growths;
static unsigned long fail_at;
static int counting;

/* Whether this growth is the one that is refused. What is asked for before this library is set up isn't counted. */
static int refused(void) {
    if (!counting) return 0;
    growths += 1;
    if (growths != fail_at) return 0;
    errno = ENOMEM;
    return 1;
}

void *malloc(size_t size) {
    static void *(*next)(size_t);
    if (!next) next = (void *(*)(size_t))dlsym(RTLD_NEXT, "malloc");
    return refused() ? NULL : next(size);
}

void *realloc(void *block, size_t size) {
    static void *(*next)(void *, size_t);
    if (!next) next = (void *(*)(void *, size_t))dlsym(RTLD_NEXT, "realloc");
    return refused() ? NULL : next(block, size);
}

void *aligned_alloc(size_t alignment, size_t size) {
    static void *(*next)(size_t, size_t);
    if (!next) next = (void *(*)(size_t, size_t))dlsym(RTLD_NEXT, "aligned_alloc");
    return refused() ? NULL : next(alignment, size);
}

int posix_memalign(void **block, size_t alignment, size_t size) {
    static int (*next)(void **, size_t, size_t);
    if (!next) next = (int (*)(void **, size_t, size_t))dlsym(RTLD_NEXT, "posix_memalign");
    return refused() ? ENOMEM : next(block, alignment, size);
}

__attribute__((constructor)) static void begin(void) {
    const char *at = getenv("FAIL_AT");
    fail_at = at ? strtoul(at, NULL, 10) : 0;
    /* The functions after these are looked up before counting begins. */
    free(malloc(1));
    free(realloc(NULL, 1));
    free(aligned_alloc(16, 16));
    void *block = NULL;
    if (posix_memalign(&block, 16, 16) == 0) free(block);
    counting = 1;
}

__attribute__((destructor)) static void end(void) {
    counting = 0;
    const char *name = getenv("GROWTHS");
    if (!name) return;
    FILE *file = fopen(name, "w");
    if (!file) return;
    fprintf(file, "%lu\n", growths);
    fclose(file);
}
