/* Refuses the allocation whose number stands in FAIL_AT, counted from 1, and writes how many were asked for to the file COUNT_TO.
   Built by: cc -shared -fPIC -o refuse.so bench/refuse.c -ldl, and put before a program by LD_PRELOAD. */
#define _GNU_SOURCE
#include <dlfcn.h>
#include <errno.h>
#include <stdio.h>
#include <stdlib.h>

static long count;

static int refused(void) {
    const char *wanted = getenv("FAIL_AT");
    count++;
    return wanted != NULL && count == atol(wanted);
}

void *malloc(size_t size) {
    static void *(*real)(size_t);
    if (real == NULL) real = dlsym(RTLD_NEXT, "malloc");
    return refused() ? NULL : real(size);
}

void *realloc(void *block, size_t size) {
    static void *(*real)(void *, size_t);
    if (real == NULL) real = dlsym(RTLD_NEXT, "realloc");
    return refused() ? NULL : real(block, size);
}

void *aligned_alloc(size_t alignment, size_t size) {
    static void *(*real)(size_t, size_t);
    if (real == NULL) real = dlsym(RTLD_NEXT, "aligned_alloc");
    return refused() ? NULL : real(alignment, size);
}

int posix_memalign(void **block, size_t alignment, size_t size) {
    static int (*real)(void **, size_t, size_t);
    if (real == NULL) real = dlsym(RTLD_NEXT, "posix_memalign");
    return refused() ? ENOMEM : real(block, alignment, size);
}

__attribute__((destructor)) static void write_count(void) {
    const char *path = getenv("COUNT_TO");
    long asked = count;
    FILE *file = path == NULL ? NULL : fopen(path, "w");
    if (file == NULL) return;
    fprintf(file, "%ld\n", asked);
    fclose(file);
}
