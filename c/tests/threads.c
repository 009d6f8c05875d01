/* Four threads make calls at once. */
#include "../fixed_decimal.h"
#include <pthread.h>
#include <stdio.h>
#include <string.h>

static fd_formatter german;

static void *work(void *arg) {
    size_t bad = 0;
    long seed = (long)(size_t)arg;
    fd_call pad = {.kind = FD_PAD_END, .position = -5};
    fd_forms by_tag = {.format.count = 2}, by_number = {.format.locale = fd_locale((const uint8_t *)"de", 2).value};
    uint64_t rules = fd_plural_rules((const uint8_t *)"pl", 2, FD_CARDINAL).value;
    for (long i = 0; i < 50000; i++) {
        char text[40], want[40];
        uint8_t out[40];
        int n = snprintf(text, 40, "%ld.%03ld", seed * 100000 + i, i % 1000);
        int m = snprintf(want, 40, "%ld.%03ld,%03ld00", seed * 100 + i / 1000, i % 1000, i % 1000);
        fd_result r = fd_convert((uint8_t *)text, (size_t)n, i % 2 ? &by_tag : &by_number, &pad, 1,
                                 (const uint8_t *)"de", 2, out, 40);
        bad += r.status != 0 || r.count != (size_t)m || memcmp(out, want, (size_t)m) != 0;
        r = fd_format(&german, (uint8_t *)text, (size_t)n, out, 40);
        bad += r.status != 0 || r.count != (size_t)m - 2 || memcmp(out, want, (size_t)m - 2) != 0;
        bad += fd_category_of(rules, (uint8_t *)text, (size_t)n).value != FD_OTHER;
    }
    return (void *)bad;
}

int main(void) {
    pthread_t threads[4];
    size_t bad = 0;
    german = fd_formatter_by_skeleton((const uint8_t *)"de", 2, (const uint8_t *)".000", 4).formatter;
    for (size_t i = 0; i < 4; i++)
        if (pthread_create(&threads[i], 0, work, (void *)(i + 1)) != 0) return puts("a thread does not start"), 1;
    for (int i = 0; i < 4; i++) {
        void *found;
        pthread_join(threads[i], &found);
        bad += (size_t)found;
    }
    printf("400000 texts in 4 threads, %zu wrong\n", bad);
    return bad != 0;
}
