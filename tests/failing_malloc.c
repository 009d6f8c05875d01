/* For tests/allocation_failures.sh, before a program by LD_PRELOAD: `malloc` and `realloc` return NULL in the call of
 * the number FAIL_AT, from 1, and in none for 0. When the program ends the number of calls is written to the file 9. */
#define _GNU_SOURCE
#include <dlfcn.h>
#include <stdio.h>
#include <stdlib.h>

static unsigned long calls, fail_at;

__attribute__((constructor)) static void start(void) {
    fail_at = strtoul(getenv("FAIL_AT"), NULL, 10);
    calls = 0;
}

__attribute__((destructor)) static void end(void) {
    dprintf(9, "%lu ", calls);
}

void *malloc(size_t size) {
    static void *(*allocate)(size_t);
    if (allocate == NULL)
        allocate = (void *(*)(size_t))dlsym(RTLD_NEXT, "malloc");
    return ++calls == fail_at ? NULL : allocate(size);
}

void *realloc(void *block, size_t size) {
    static void *(*reallocate)(void *, size_t);
    if (reallocate == NULL)
        reallocate = (void *(*)(void *, size_t))dlsym(RTLD_NEXT, "realloc");
    return ++calls == fail_at ? NULL : reallocate(block, size);
}
