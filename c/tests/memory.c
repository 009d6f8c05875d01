/* Makes each allocation fail in turn: the answer is then FD_MEMORY, what was not written is as it was, nothing leaks.
 * Short values and lists of up to eight calls allocate nothing. Link as failing.h says. */
#include "../fixed_decimal.h"
#include "failing.h"
#include <stdio.h>
#include <string.h>

#define BYTES(s) (const uint8_t *)(s), strlen(s)
#define ROOM 4096

static char digits[201], lines[450], word[210], typed_word[210], exponent[210];
static uint8_t buffer[ROOM], before[ROOM];
static const fd_forms own_text, german = {.read.count = 2, .format.count = 2};
static fd_call calls[9];

static uint32_t run(void) {
    return fd_run(BYTES(digits), calls, 9, BYTES("5"), buffer, ROOM).status;
}
static uint32_t convert(void) {
    return fd_convert(BYTES(digits), &german, calls, 1, BYTES("de"), buffer, ROOM).status;
}
/* Euros, of two digits, with more than eight digits of any kind. */
static const fd_number_options euros = {
    .style = FD_CURRENCY, .currency = "EUR", .rounding_mode = FD_HALF_EVEN, .minimum_integer_digits = 1,
    .minimum_fraction_digits = 2, .maximum_fraction_digits = 2, .minimum_significant_digits = FD_DEFAULT,
    .maximum_significant_digits = FD_DEFAULT, .rounding_increment = 25};

static uint32_t format_number(void) {
    return fd_format_number(BYTES(digits), BYTES("de"), &euros, buffer, ROOM).status;
}
static uint32_t read_number(void) {
    return fd_read_number(BYTES(digits), BYTES("de"), &euros, 1, buffer, ROOM).status;
}
static uint32_t skeleton(void) {
    return fd_skeleton(&euros, buffer, ROOM).status;
}
static uint32_t short_format_number(void) {
    return fd_format_number(BYTES("-1234567.75"), BYTES("de"), &euros, buffer, ROOM).status;
}
static uint32_t format_by_skeleton(void) {
    return fd_format_by_skeleton(BYTES(digits), BYTES("de"), BYTES("K precision-increment/25"), buffer, ROOM).status;
}
static uint32_t convert_number(void) {
    static const fd_forms forms = {.format = {.count = 2, .skeleton_start = 2, .skeleton_count = 24}};
    return fd_convert(BYTES(digits), &forms, calls, 1, BYTES("deK precision-increment/25"), buffer, ROOM).status;
}
static uint32_t convert_read(void) {
    static const fd_form amounts = {.count = 2, .skeleton_start = 2, .skeleton_count = 12, .option = FD_LENIENT};
    const fd_forms forms = {.read = amounts};
    return fd_convert(BYTES(digits), &forms, calls, 1, BYTES("decurrency/EUR"), buffer, ROOM).status;
}
static uint32_t convert_lenient(void) {
    const fd_forms forms = {.read = {.count = 2, .option = FD_LENIENT}};
    return fd_convert(BYTES(digits), &forms, calls, 1, BYTES("de"), buffer, ROOM).status;
}
/* A number of 16 digits by a skeleton: an increment of 25 at the 17th digit needs memory, and nothing else does. */
static uint32_t by(const char *skeleton) {
    const char *number = "1.999999999999987";
    return fd_format_by_skeleton(BYTES(number), BYTES("en"), BYTES(skeleton), buffer, ROOM).status;
}
static uint32_t by_25(void) {
    return by("precision-increment/0.0000000000000025 rounding-mode-half-up");
}
static uint32_t by_25_scientific(void) {
    return by("scientific precision-increment/0.0000000000000025");
}
static uint32_t by_25_before(void) {
    return by("precision-increment/0.000000000000025");
}
static uint32_t by_5(void) {
    return by("precision-increment/0.0000000000000005");
}
static uint32_t by_percent(void) {
    return by("%x100 .0");
}
static uint32_t read_by_skeleton(void) {
    return fd_read_by_skeleton(BYTES(digits), BYTES("de"), BYTES("currency/EUR"), 1, buffer, ROOM).status;
}
/* 200 digits with the word of their magnitude, with another word, and with an exponent. */
static uint32_t read_word(void) {
    return fd_read_by_skeleton(BYTES(word), BYTES("en"), BYTES("K"), 0, buffer, ROOM).status;
}
static uint32_t read_typed_word(void) {
    return fd_read_by_skeleton(BYTES(typed_word), BYTES("en"), BYTES("K"), 1, buffer, ROOM).status;
}
static uint32_t read_exponent(void) {
    return fd_read_by_skeleton(BYTES(exponent), BYTES("en"), BYTES("E0"), 0, buffer, ROOM).status;
}
/* Kept formatters; parts that do not change on an error. */
static fd_formatter kept(void) {
    fd_made made = fd_formatter_by_skeleton(BYTES("de"), BYTES("currency/EUR precision-increment/25"));
    return made.formatter;
}
static uint32_t format_kept(void) {
    const fd_formatter f = kept();
    return fd_format(&f, BYTES(digits), buffer, ROOM).status;
}
static uint32_t short_format_kept(void) {
    const fd_formatter f = kept();
    fd_resolution options = fd_resolved(&f);
    if (options.status != FD_OK || fd_status_text(FD_OVERFLOW, 1, 2, buffer, 0).count != 16) return 96;
    return fd_format(&f, BYTES("-1234567.890123456"), buffer, ROOM).status;
}
static uint32_t range_kept(void) {
    const fd_formatter f = kept();
    return fd_format_range(&f, BYTES(digits), BYTES(digits), buffer, ROOM).status;
}
/* The end fails after the start. */
static uint32_t range_to_long(void) {
    const fd_formatter f = kept();
    return fd_format_range(&f, BYTES("1"), BYTES(digits), buffer, ROOM).status;
}
static uint32_t short_range_kept(void) {
    const fd_formatter f = kept();
    if (fd_category_range(BYTES("ru"), FD_ONE, FD_MANY).value != FD_MANY) return 93;
    return fd_format_range(&f, BYTES("-1234567.890123456"), BYTES("1234567.890123456"), buffer, ROOM).status;
}
static uint32_t parts_of(const char *number, const char *end) {
    static fd_part parts[512], old[512];
    const fd_formatter f = kept();
    memset(parts, 0x3C, sizeof parts);
    memset(old, 0x3C, sizeof old);
    fd_parted r = end ? fd_format_range_parts(&f, BYTES(number), BYTES(end), buffer, ROOM, parts, 512)
                      : fd_format_parts(&f, BYTES(number), buffer, ROOM, parts, 512);
    if (r.status != FD_OK && memcmp(parts, old, sizeof parts) != 0) return 95;
    return r.status;
}
static uint32_t parts_kept(void) {
    return parts_of(digits, NULL);
}
static uint32_t range_parts_kept(void) {
    return parts_of("-1", digits);
}
static uint32_t short_range_parts_kept(void) {
    return parts_of("-1234567.890123456", "1");
}
static uint32_t short_parts_kept(void) {
    return parts_of("-1234567.890123456", NULL);
}
static uint32_t read_kept(void) {
    const fd_formatter f = kept();
    return fd_read(&f, BYTES(digits), 1, buffer, ROOM).status;
}
static uint32_t column_kept(void) {
    const fd_formatter f = kept();
    fd_column c = fd_format_column(&f, BYTES(lines), 1, buffer, ROOM);
    if (c.failed) return 94;
    memset(buffer, 0xC3, c.written);
    return c.status;
}
static uint32_t short_column_kept(void) {
    const fd_formatter f = kept();
    fd_column c = fd_format_column(&f, BYTES("1\n22.5\nx\n"), 1, buffer, ROOM);
    memset(buffer, 0xC3, c.written);
    return c.status;
}
static uint32_t compare(void) {
    return fd_compare(BYTES(digits), (const uint8_t *)digits, 199).status;
}
static uint32_t category(void) {
    return fd_category(BYTES("one: i = 1 and v = 0 or n % 10 = 3..4,7; few: i = 2"), BYTES("1")).status;
}
static uint32_t category_by_number(void) {
    return fd_category_of(fd_plural_rules(BYTES("ru"), FD_CARDINAL).value, BYTES(digits)).status;
}
/* The lines before the one that is out of memory are whole; here the output is the input. */
static uint32_t column(void) {
    fd_column c = fd_lines(BYTES(lines), 1, &own_text, calls, 1, BYTES("5"), buffer, ROOM);
    if (c.failed || c.read != c.written || memcmp(buffer, lines, c.written)) return 99;
    if (c.status == FD_MEMORY && c.written != (c.lines == 1 ? 2 : 203)) return 98;
    memset(buffer, 0xC3, c.written);
    return c.status;
}
static uint32_t short_run(void) {
    return fd_run(BYTES("-1234567.890123456"), calls + 1, 8, BYTES("5"), buffer, ROOM).status;
}
/* A text of 200 bytes. */
static uint32_t long_run(void) {
    static const fd_call pad = {.kind = FD_PAD_END, .position = -198};
    fd_result r = fd_run(BYTES("1"), &pad, 1, BYTES(""), buffer, ROOM);
    return r.count == 200 ? r.status : 97;
}
static uint32_t short_convert(void) {
    return fd_convert(BYTES("1.234,5"), &german, calls + 1, 8, BYTES("de"), buffer, ROOM).status;
}
static uint32_t short_numbered(void) {
    fd_forms numbered = {.format.locale = fd_locale(BYTES("hi-u-nu-deva")).value};
    return fd_convert(BYTES("1234.5"), &numbered, calls + 1, 8, BYTES(""), buffer, ROOM).status;
}
static uint32_t short_format_by_skeleton(void) {
    const char *skeleton = "currency/EUR .00";
    return fd_format_by_skeleton(BYTES("-1234567.890123456"), BYTES("de"), BYTES(skeleton), buffer, ROOM).status;
}
static uint32_t short_compact_number(void) {
    return fd_format_by_skeleton(BYTES("1234567.5"), BYTES("ar-EG"), BYTES("KK"), buffer, ROOM).status;
}
static uint32_t short_category(void) {
    return fd_category_of(fd_plural_rules(BYTES("ru"), FD_CARDINAL).value, BYTES("2.50")).status;
}
static uint32_t short_column(void) {
    fd_column c = fd_lines(BYTES("1\n22.5\nx\n"), 1, &own_text, calls + 1, 8, BYTES("5"), buffer, ROOM);
    memset(buffer, 0xC3, c.written);
    return c.status;
}

int main(void) {
    memset(digits, '7', 200);
    sprintf(lines, "7\n%s\n%s\n", digits, digits);
    sprintf(word, "%sT", digits);
    sprintf(typed_word, "%sK", digits);
    sprintf(exponent, "7.%sE3", digits + 1);
    for (int i = 0; i < 9; i++) calls[i] = (fd_call){.kind = FD_PAD_START, .position = 1};
    calls[8] = (fd_call){.kind = FD_ROUND, .position = -4, .increment = 25, .option = FD_HALF_EVEN};
    static const struct {
        const char *name;
        uint32_t (*job)(void);
        int allocates;
    } jobs[] = {{"fd_run", run, 1}, {"fd_convert", convert, 1}, {"fd_compare", compare, 1},
                {"fd_category", category, 1}, {"fd_category_of", category_by_number, 1}, {"fd_lines", column, 1},
                {"fd_format_by_skeleton", format_by_skeleton, 1}, {"fd_convert, skeleton", convert_number, 1},
                {"fd_read_by_skeleton", read_by_skeleton, 1}, {"fd_convert, read", convert_read, 1},
                {"fd_read_by_skeleton, T", read_word, 1}, {"fd_read_by_skeleton, K", read_typed_word, 1},
                {"fd_read_by_skeleton, E3", read_exponent, 1},
                {"fd_convert, lenient", convert_lenient, 1}, {"17 digits by 25", by_25, 1},
                {"17 digits by 25, E", by_25_scientific, 1}, {"16 digits by 25", by_25_before, 0},
                {"17 digits by 5", by_5, 0}, {"16 digits in percent", by_percent, 0},
                {"fd_format_number", format_number, 1}, {"fd_read_number", read_number, 1},
                {"fd_skeleton", skeleton, 1}, {"fd_format", format_kept, 1}, {"fd_format_parts", parts_kept, 1},
                {"fd_format_range", range_kept, 1}, {"fd_format_range, long end", range_to_long, 1},
                {"fd_format_range_parts", range_parts_kept, 1}, {"fd_format_range, short", short_range_kept, 0},
                {"fd_format_range_parts, short", short_range_parts_kept, 0},
                {"fd_read", read_kept, 1}, {"fd_format_column", column_kept, 1},
                {"fd_format, short", short_format_kept, 0}, {"fd_format_parts, short", short_parts_kept, 0},
                {"fd_format_column, short", short_column_kept, 0},
                {"fd_format_number, short", short_format_number, 0},
                {"fd_run, short", short_run, 0}, {"fd_run, 200 bytes", long_run, 0},
                {"fd_convert, short", short_convert, 0},
                {"fd_format_by_skeleton, short", short_format_by_skeleton, 0},
                {"fd_convert, number", short_numbered, 0},
                {"fd_format_by_skeleton, words", short_compact_number, 0}, {"fd_category_of, short", short_category, 0},
                {"fd_lines, short", short_column, 0}};
    int bad = 0;
    for (size_t j = 0; j < sizeof jobs / sizeof *jobs; j++) {
        long n = 0;
        for (fail_at = 1;; fail_at++, n++) {
            count = live = 0;
            memset(buffer, 0xC3, ROOM);
            memcpy(before, buffer, ROOM);
            uint32_t status = jobs[j].job();
            int done = count < fail_at;
            int changed = memcmp(buffer, before, ROOM) != 0;
            if (live || status != (done ? FD_OK : FD_MEMORY) || (!done && changed)) {
                bad++;
                fprintf(stderr, "%s, allocation %ld fails: status %u, %ld blocks leak, changed %d\n", jobs[j].name,
                        fail_at, status, live, changed);
            }
            if (done) break;
        }
        if ((n > 0) != jobs[j].allocates) bad++;
        printf("%-24s %ld allocations, each failed in turn\n", jobs[j].name, n);
    }
    printf("%d failures\n", bad);
    return bad != 0;
}
