/* What the tests share: checks that are counted, and texts as bytes. */
#include "../fixed_decimal.h"
#include <stdio.h>
#include <stdlib.h>
#include <string.h>

static int failures, checks;
#define CHECK(condition)                                                  \
    do {                                                                  \
        checks++;                                                         \
        if (!(condition)) {                                               \
            failures++;                                                   \
            fprintf(stderr, "line %d: %s\n", __LINE__, #condition);       \
        }                                                                 \
    } while (0)
#define B(s) (const uint8_t *)(s), sizeof(s) - 1
#define BYTES(s) (const uint8_t *)(s), strlen(s)
#define COUNT(rows) (sizeof rows / sizeof *rows)

/* Whether all bytes of a block are b. */
static int all(const void *p, size_t n, uint8_t b) {
    for (size_t i = 0; i < n; i++)
        if (((const uint8_t *)p)[i] != b) return 0;
    return 1;
}

/* Whether a call succeeded, with this text at the start of the buffer. */
static int gives(fd_result r, const uint8_t *buffer, const char *text) {
    size_t n = strlen(text);
    return r.status == FD_OK && r.at == 0 && r.count == n && memcmp(buffer, text, n) == 0;
}

/* Prints the counts, and returns the status of the test. */
static int report(void) {
    printf("%d checks, %d failures\n", checks, failures);
    return failures != 0;
}
