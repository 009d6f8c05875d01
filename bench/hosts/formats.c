/* Times 1234.5, and the range from it to 5678.5, as a locale writes them by a skeleton: a row `call`, locale, skeleton,
 * number or range, nanoseconds of a call.
 *
 * `fd_format` has a formatter that is kept, `fd_format_by_skeleton` makes one each time. `unumf_formatDecimal` of ICU
 * has a formatter and a result that are kept, and unumf_resultToString copies its text in UTF-16. The ranges are those
 * of fd_format_range and unumrf_formatDecimalRange, by formatters that are kept. The last rows, `fd_unit` and a unit,
 * have the time in which a unit is found. Each figure is the least processor time of nine batches. With the words
 * CALL LOCALE SKELETON COUNT it makes that many calls, and times none. */
#include "../../c/fixed_decimal.h"
#include <stdio.h>
#include <stdlib.h>
#include <string.h>
#include <time.h>
#include <unicode/uloc.h>
#include <unicode/unumberformatter.h>
#include <unicode/unumberrangeformatter.h>
#include <unicode/ustring.h>

enum { CALLS = 20000, BATCHES = 9, ROOM = 128 };
#define BYTES(s) (const uint8_t *)(s), strlen(s)
static const char *const locales[] = {"en", "de", "hi", "ar-EG", "ja"};
static const char *const skeletons[] = {"currency/EUR .00", "percent", "K"};
static const char number[] = "1234.5", range_end[] = "5678.5";
static const char *const units[] = {"kilometer", "year", "mile-scandinavian", "kilometer-per-hour", "microsecond"};
static volatile size_t total;

typedef struct subject {
    const char *locale, *skeleton;
    fd_formatter kept;
    UNumberFormatter *icu;
    UFormattedNumber *result;
    UNumberRangeFormatter *icu_range;
    UFormattedNumberRange *range;
} subject;

static void format(const subject *it) {
    uint8_t text[ROOM];
    total += fd_format(&it->kept, BYTES(number), text, ROOM).count;
}

static void format_by_skeleton(const subject *it) {
    uint8_t text[ROOM];
    total += fd_format_by_skeleton(BYTES(number), BYTES(it->locale), BYTES(it->skeleton), text, ROOM).count;
}

static void format_by_icu(const subject *it) {
    UChar text[ROOM];
    UErrorCode status = U_ZERO_ERROR;
    unumf_formatDecimal(it->icu, number, (int32_t)strlen(number), it->result, &status);
    total += (size_t)unumf_resultToString(it->result, text, ROOM, &status);
}

static void format_range(const subject *it) {
    uint8_t text[ROOM];
    total += fd_format_range(&it->kept, BYTES(number), BYTES(range_end), text, ROOM).count;
}

static void format_range_by_icu(const subject *it) {
    int32_t count = 0;
    UErrorCode status = U_ZERO_ERROR;
    unumrf_formatDecimalRange(it->icu_range, number, (int32_t)strlen(number), range_end, (int32_t)strlen(range_end),
                              it->range, &status);
    ufmtval_getString(unumrf_resultAsValue(it->range, &status), &count, &status);
    total += (size_t)count;
}

static void find_unit(const subject *it) {
    total += fd_unit(BYTES(it->skeleton)).unit;
}

#define RANGE "1234.5..5678.5"
static const struct {
    const char *name, *what;
    void (*make)(const subject *);
} calls[] = {
    {"fd_format", number, format},
    {"fd_format_by_skeleton", number, format_by_skeleton},
    {"unumf_formatDecimal", number, format_by_icu},
    {"fd_format_range", RANGE, format_range},
    {"unumrf_formatDecimalRange", RANGE, format_range_by_icu},
};

static double processor_time(void) {
    struct timespec time;
    clock_gettime(CLOCK_PROCESS_CPUTIME_ID, &time);
    return (double)time.tv_sec * 1e9 + (double)time.tv_nsec;
}

static double least(void (*make)(const subject *), const subject *it) {
    double found = 1e12;
    for (int batch = 0; batch < BATCHES; batch++) {
        double start = processor_time();
        for (int i = 0; i < CALLS; i++) make(it);
        double took = (processor_time() - start) / CALLS;
        if (took < found) found = took;
    }
    return found;
}

/* The formatters of both libraries, which write the same text. */
static subject open_both(const char *locale, const char *skeleton) {
    subject it = {.locale = locale, .skeleton = skeleton};
    char id[ROOM], bytes[ROOM];
    uint8_t own[ROOM];
    UChar words[ROOM], text[ROOM];
    UErrorCode status = U_ZERO_ERROR;
    uloc_forLanguageTag(locale, id, ROOM, NULL, &status);
    u_uastrcpy(words, skeleton);
    it.icu = unumf_openForSkeletonAndLocale(words, -1, id, &status);
    it.result = unumf_openResult(&status);
    it.icu_range = unumrf_openForSkeletonWithCollapseAndIdentityFallback(
        words, -1, UNUM_RANGE_COLLAPSE_AUTO, UNUM_IDENTITY_FALLBACK_APPROXIMATELY, id, NULL, &status);
    it.range = unumrf_openResult(&status);
    unumf_formatDecimal(it.icu, number, (int32_t)strlen(number), it.result, &status);
    unumf_resultToString(it.result, text, ROOM, &status);
    u_strToUTF8(bytes, ROOM, NULL, text, -1, &status);
    fd_made made = fd_formatter_by_skeleton(BYTES(locale), BYTES(skeleton));
    it.kept = made.formatter;
    fd_result found = fd_format(&it.kept, BYTES(number), own, ROOM);
    if (U_FAILURE(status) || made.status || found.status || strlen(bytes) != found.count ||
        memcmp(bytes, own, found.count)) {
        fprintf(stderr, "%s %s: %.*s here, %s in ICU\n", locale, skeleton, (int)found.count, (char *)own, bytes);
    }
    return it;
}

int main(int count, char **words) {
    if (count == 5) {
        subject it = open_both(words[2], words[3]);
        size_t call = 0;
        while (call + 1 < sizeof calls / sizeof *calls && strcmp(words[1], calls[call].name)) call++;
        for (int left = atoi(words[4]); left > 0; left--) calls[call].make(&it);
        return 0;
    }
    for (size_t l = 0; l < sizeof locales / sizeof *locales; l++) {
        for (size_t s = 0; s < sizeof skeletons / sizeof *skeletons; s++) {
            subject it = open_both(locales[l], skeletons[s]);
            for (size_t call = 0; call < sizeof calls / sizeof *calls; call++)
                printf("%s\t%s\t%s\t%s\t%.0f\n", calls[call].name, it.locale, it.skeleton, calls[call].what,
                       least(calls[call].make, &it));
            unumf_close(it.icu);
            unumf_closeResult(it.result);
            unumrf_close(it.icu_range);
            unumrf_closeResult(it.range);
        }
    }
    for (size_t u = 0; u < sizeof units / sizeof *units; u++) {
        subject it = {.skeleton = units[u]};
        printf("fd_unit\t\t%s\t\t%.0f\n", units[u], least(find_unit, &it));
    }
    return 0;
}
