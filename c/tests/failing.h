/* Makes an allocation of the library fail: that with the number `fail_at`, and all later ones if `and_later` is set;
 * none if it is 0. `count` is the number of allocations, and `live` that of the blocks that were not freed.
 * Link with -Wl,--wrap=malloc,--wrap=realloc,--wrap=free. */
#include <stdlib.h>

void *__real_malloc(size_t n);
void *__real_realloc(void *p, size_t n);
void __real_free(void *p);
static long count, fail_at, live;
static int and_later;

static int fails(void) {
    count++;
    return fail_at && (and_later ? count >= fail_at : count == fail_at);
}

void *__wrap_malloc(size_t n) {
    void *made = fails() ? NULL : __real_malloc(n);
    live += made != NULL;
    return made;
}

void *__wrap_realloc(void *p, size_t n) {
    void *made = fails() ? NULL : __real_realloc(p, n);
    live += made && !p;
    return made;
}

void __wrap_free(void *p) {
    live -= p != NULL;
    __real_free(p);
}
