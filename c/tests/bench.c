/* Nanoseconds a call of the C library, and of libmpdec with -DWITH_MPDEC: best of seven passes over 1,024 texts.
 *
 *   gcc -O2 -DWITH_MPDEC c/tests/bench.c c/out/libfixed_decimal.a -lmpdec -o bench    needs libmpdec-dev
 */
#include "../fixed_decimal.h"
#include <stdio.h>
#include <stdlib.h>
#include <string.h>
#include <time.h>
#ifdef WITH_MPDEC
#include <mpdecimal.h>
#endif

enum { TEXTS = 1024, ROUNDS = 100, PASSES = 7 };
static char texts[TEXTS][128];
static size_t sizes[TEXTS];
static volatile size_t sink;

static double now(void) {
    struct timespec t;
    clock_gettime(CLOCK_MONOTONIC, &t);
    return t.tv_sec * 1e9 + t.tv_nsec;
}

/* Texts of a number of digits, four of them after the point. */
static void make(int digits) {
    unsigned x = 12345;
    for (int i = 0; i < TEXTS; i++) {
        char *p = texts[i];
        for (int d = 0; d < digits; d++) {
            if (d == digits - 4) *p++ = '.';
            x = x * 1103515245u + 12345u;
            *p++ = (char)('0' + (d ? (x >> 16) % 10 : 1 + (x >> 16) % 9));
        }
        *p = 0;
        sizes[i] = strlen(texts[i]);
    }
}

#define TIME(name, body)                                                \
    do {                                                                \
        double best = 1e18;                                             \
        for (int pass = 0; pass < PASSES; pass++) {                     \
            double t = now();                                           \
            for (int r = 0; r < ROUNDS; r++)                            \
                for (int i = 0; i < TEXTS; i++) { body }                \
            t = (now() - t) / (double)(ROUNDS * TEXTS);                 \
            if (t < best) best = t;                                     \
        }                                                               \
        printf("%4d %-46s %8.1f ns\n", digits, name, best);             \
    } while (0)
#define TEXT (const uint8_t *)texts[i], sizes[i]

int main(void) {
    static const int lengths[] = {8, 19, 100};
    uint8_t out[160];
    fd_call round = {.kind = FD_ROUND, .option = FD_HALF_EVEN, .increment = 1, .position = -2};
    fd_forms german = {.format.count = 2}, numbered = {.format.locale = fd_locale((const uint8_t *)"de", 2).value};
    static const fd_forms own_text;
    for (size_t l = 0; l < 3; l++) {
        int digits = lengths[l];
        make(digits);
        TIME("fd_run: parse, round, write", sink += fd_run(TEXT, &round, 1, FD_NONE(uint8_t), 0, out, 160).count;);
        TIME("fd_run: parse, write",
             sink += fd_run(TEXT, FD_NONE(fd_call), 0, FD_NONE(uint8_t), 0, out, 160).count;);
        TIME("fd_convert: parse, round, write",
             sink += fd_convert(TEXT, &own_text, &round, 1, FD_NONE(uint8_t), 0, out, 160).count;);
        TIME("fd_convert to de: parse, round, write",
             sink += fd_convert(TEXT, &german, &round, 1, (const uint8_t *)"de", 2, out, 160).count;);
        TIME("fd_convert to the number of de: the same",
             sink += fd_convert(TEXT, &numbered, &round, 1, FD_NONE(uint8_t), 0, out, 160).count;);
        TIME("fd_compare with itself", sink += (size_t)fd_compare(TEXT, TEXT).value;);
#ifdef WITH_MPDEC
        mpd_context_t context;
        mpd_maxcontext(&context);
        context.prec = 200;
        context.traps = 0;
        context.round = MPD_ROUND_HALF_EVEN;
        TIME("libmpdec: parse, round, write; a new value", {
            uint32_t status = 0;
            char *text;
            mpd_t *value = mpd_qnew();
            mpd_qset_string(value, texts[i], &context, &status);
            mpd_qrescale(value, value, -2, &context, &status);
            sink += (size_t)mpd_to_sci_size(&text, value, 0);
            mpd_free(text);
            mpd_del(value);
        });
#endif
    }
    int digits = 0;
    static const char *const tags[] = {"en", "de-CH", "zh-Hant-HK", "hi-u-nu-deva", "de_CH.UTF-8", "ar-EG-u-nu-latn"};
    for (size_t k = 0; k < sizeof tags / sizeof *tags; k++)
        TIME(tags[k], sink += fd_locale((const uint8_t *)tags[k], strlen(tags[k])).value;);
    /* A column of all texts of 8 digits. */
    digits = 8;
    make(digits);
    static uint8_t lines[TEXTS * 16], output[TEXTS * 16];
    size_t count = 0;
    for (int i = 0; i < TEXTS; i++) {
        memcpy(lines + count, texts[i], sizes[i]);
        count += sizes[i];
        lines[count++] = '\n';
    }
    double best = 1e18;
    for (int pass = 0; pass < PASSES; pass++) {
        double t = now();
        for (int r = 0; r < ROUNDS; r++)
            sink += fd_lines(lines, count, 0, &own_text, &round, 1, FD_NONE(uint8_t), 0, output, sizeof output).lines;
        t = (now() - t) / (double)(ROUNDS * TEXTS);
        if (t < best) best = t;
    }
    printf("%4d %-46s %8.1f ns\n", digits, "fd_lines: a line", best);
    return 0;
}
