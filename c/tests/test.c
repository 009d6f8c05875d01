/* Each export at each status, and at each capacity from 0 to 8 beyond each text, in exact blocks of the heap. */
#include "check.h"

/* A text is written to the start of a buffer of 0xA5 with this room, if it fits. */
static void check_text(fd_result r, const uint8_t *buffer, size_t size, size_t room, const char *text) {
    size_t n = strlen(text);
    if (room < n) CHECK(r.status == FD_BUFFER_TOO_SMALL && r.count == n && r.at == 0 && all(buffer, size, 0xA5));
    else CHECK(gives(r, buffer, text) && all(buffer + n, size - n, 0xA5));
}

/* fd_run, or fd_convert where there are forms. */
static fd_result convert(const char *start, const fd_forms *forms, const fd_call *calls, size_t count,
                         const char *texts, uint8_t *buffer, size_t room) {
    if (forms) return fd_convert(BYTES(start), forms, calls, count, BYTES(texts), buffer, room);
    return fd_run(BYTES(start), calls, count, BYTES(texts), buffer, room);
}

static void at_all_sizes(const char *start, const fd_forms *forms, const fd_call *calls, size_t count,
                         const char *texts, const char *text) {
    size_t n = strlen(text);
    for (size_t room = 0; room < n + 9; room++) {
        uint8_t *buffer = malloc(room ? room : 1);
        memset(buffer, 0xA5, room ? room : 1);
        check_text(convert(start, forms, calls, count, texts, buffer, room), buffer, room, room, text);
        free(buffer);
    }
}

static const fd_forms own_text;
#define RUN1(start, text, ...)                                   \
    do {                                                         \
        fd_call c_ = {__VA_ARGS__};                              \
        at_all_sizes(start, 0, &c_, 1, "", text);                \
        at_all_sizes(start, &own_text, &c_, 1, "", text);        \
    } while (0)

static void fails(const char *start, fd_call call, const char *texts, uint32_t status, size_t at) {
    uint8_t buffer[32];
    memset(buffer, 0x5A, sizeof buffer);
    for (int form = 0; form < 2; form++) {
        fd_result r = convert(start, form ? &own_text : 0, &call, 1, texts, buffer, 32);
        CHECK(r.status == status && r.at == at && r.count == 0 && all(buffer, 32, 0x5A));
    }
}

static void test_calls(void) {
    at_all_sizes("+0012.50", 0, FD_NONE(fd_call), 0, "", "+0012.50");
    RUN1("250", "2.50", .kind = FD_SHIFT, .position = -2);
    RUN1("007", "7", .kind = FD_TRIM_START);
    RUN1("2.50", "2.5", .kind = FD_TRIM_END);
    RUN1("2.00", "2", .kind = FD_TRIM_END_IF_INTEGER);
    RUN1("42", "0042", .kind = FD_PAD_START, .position = 4);
    RUN1("42", "42.00", .kind = FD_PAD_END, .position = -2);
    RUN1("42.5", "2.5", .kind = FD_MAX, .position = 1);
    RUN1("2.25", "2.2", .kind = FD_ROUND, .position = -1, .option = FD_HALF_EVEN, .increment = 1);
    RUN1("5", "-5", .kind = FD_SIGN, .option = FD_MINUS);
    RUN1("5", "+5", .kind = FD_DISPLAY, .option = FD_ALWAYS);
    fd_call c = {.kind = FD_CONCAT, .text_start = 2, .text_count = 4};
    at_all_sizes("12", 0, &c, 1, "xx0.25yy", "12.25");
    fd_call many[9] = {{.kind = FD_CONCAT, .text_count = 3}, {.kind = FD_SHIFT, .position = 1},
                       {.kind = FD_SIGN, .option = FD_PLUS}};
    for (size_t n = 3; n < 9; n++) many[n] = (fd_call){.kind = FD_PAD_START, .position = (int16_t)n};
    static const char *padded[10] = {"", "", "", "+75", "+075", "+0075", "+00075", "+000075", "+0000075", "+00000075"};
    for (size_t n = 3; n <= 9; n++) at_all_sizes("7", n % 2 ? 0 : &own_text, many, n, "0.5", padded[n]);
    static const char *tie[9] = {"-2", "-3", "-3", "-2", "-2", "-3", "-3", "-2", "-2"};
    for (uint8_t m = 0; m < 9; m++) RUN1("-2.5", tie[m], .kind = FD_ROUND, .option = m, .increment = 1);
    RUN1("112", "100", .kind = FD_ROUND, .option = FD_HALF_EVEN, .increment = 25);
    RUN1("113", "125", .kind = FD_ROUND, .option = FD_HALF_EVEN, .increment = 25);
    RUN1("113", "115", .kind = FD_ROUND, .option = FD_HALF_EVEN, .increment = 5);
    RUN1("113", "114", .kind = FD_ROUND, .option = FD_CEIL, .increment = 2);
}

static void test_errors(void) {
    fd_call trim = {.kind = FD_TRIM_END};
    fails("1x", trim, "", FD_SYNTAX, 0);
    fails("", trim, "", FD_SYNTAX, 0);
    fails("1e32768", trim, "", FD_LIMIT, 0);
    fails("10", (fd_call){.kind = FD_SHIFT, .position = 32767}, "", FD_OVERFLOW, 0);
    fails("1", (fd_call){.kind = 11}, "", FD_UNKNOWN_CALL, 0);
    fails("1", (fd_call){.kind = 255}, "", FD_UNKNOWN_CALL, 0);
    fails("1", (fd_call){.kind = FD_ROUND, .option = 9, .increment = 1}, "", FD_UNKNOWN_CALL, 0);
    fails("1", (fd_call){.kind = FD_ROUND, .increment = 3}, "", FD_UNKNOWN_CALL, 0);
    fails("1", (fd_call){.kind = FD_SIGN, .option = 3}, "", FD_UNKNOWN_CALL, 0);
    fails("1", (fd_call){.kind = FD_DISPLAY, .option = 5}, "", FD_UNKNOWN_CALL, 0);
    static const size_t outside[4][2] = {{0, 4}, {4, 0}, {SIZE_MAX, 2}, {2, SIZE_MAX}};
    for (int i = 0; i < 4; i++)
        fails("1", (fd_call){.kind = FD_CONCAT, .text_start = outside[i][0], .text_count = outside[i][1]}, "0.5",
              FD_UNKNOWN_CALL, 0);
    fails("1", (fd_call){.kind = FD_CONCAT, .text_count = 2}, "0.5", FD_OPERAND_SYNTAX, 0);
    fails("12", (fd_call){.kind = FD_CONCAT, .text_count = 2}, "25", FD_OVERLAP, 0);
    fails("1", (fd_call){.kind = FD_CONCAT, .text_count = 7}, "1e40000", FD_OPERAND_LIMIT, 0);
    uint8_t b[1];
    fd_call c[10] = {trim, {.kind = FD_SHIFT, .position = 32767}, {.kind = FD_SHIFT, .position = 1}, trim, trim,
                     trim, trim, trim, trim, trim};
    for (size_t n = 3; n <= 10; n++) {
        fd_result r = fd_run(B("7"), c, n, FD_NONE(uint8_t), 0, b, 0);
        CHECK(r.status == FD_OVERFLOW && r.at == 2);
    }
    c[1].kind = 77;
    for (size_t n = 2; n <= 10; n++) {
        fd_result r = fd_run(B("x"), c, n, FD_NONE(uint8_t), 0, b, 0);
        CHECK(r.status == FD_UNKNOWN_CALL && r.at == 1);
    }
}

static void test_long_texts(void) {
    uint8_t b[128];
    fd_call c[2] = {{.kind = FD_PAD_END, .position = -32768}, {.kind = FD_PAD_START, .position = 32767}};
    fd_result r = fd_run(B("1"), c, 2, FD_NONE(uint8_t), 0, b, 128);
    CHECK(r.status == FD_BUFFER_TOO_SMALL && r.count == 32767 + 1 + 32768);
    uint8_t *big = malloc(r.count);
    fd_result again = fd_run(B("1"), c, 2, FD_NONE(uint8_t), 0, big, r.count);
    CHECK(again.status == FD_OK && again.count == r.count && big[32766] == '1' && big[32767] == '.' && big[0] == '0');
    fd_call trims[2] = {{.kind = FD_TRIM_START}, {.kind = FD_TRIM_END}};
    CHECK(gives(fd_run(big, r.count, trims, 2, FD_NONE(uint8_t), 0, b, 128), b, "1"));
    free(big);
    for (size_t n = 55; n < 75; n++) { /* around the 64 digits that are written at a time */
        char text[81];
        memset(text, '7', n);
        text[n] = 0;
        at_all_sizes(text, n % 2 ? 0 : &own_text, FD_NONE(fd_call), 0, "", text);
    }
}

/* The form by the number of its locale instead of the tag. */
static fd_form by_number(fd_form form, const char *texts) {
    if (!form.count) return form;
    fd_unsigned locale = fd_locale((const uint8_t *)texts + form.start, form.count);
    CHECK(locale.status == FD_OK && locale.at == 0 && locale.value > 0 && locale.value < 1ull << 49);
    return (fd_form){.locale = locale.value, .start = SIZE_MAX, .count = 1, .option = form.option};
}

static void test_locales(void) {
    static const struct {
        const char *text, *texts, *result;
        fd_forms forms;
    } rows[] = {
        {"-1234567.50", "de-CH", "-1'234'567.50", {.format.count = 5}},
        {"1234567.5", "en-IN", "12,34,567.5", {.format.count = 5}},
        {"1234567.5", "hi-u-nu-deva", "\u0967\u0968,\u0969\u096a,\u096b\u096c\u096d.\u096b", {.format.count = 12}},
        {"-1234.5", "ar-EG-u-nu-latn", "\u200e-1,234.5", {.format.count = 15}},
        {"1234567.5", "en", "1234567.5", {.format.count = 2, .format.option = FD_GROUP_NEVER}},
        {"1234.5", "..de", "1.234,5", {.format.start = 2, .format.count = 2}},
        {"1.234,565", "de", "1234.565", {.read.count = 2}},
        {"-1'234'567.50", "de-CH", "-1234567.50", {.read.count = 5, .read.option = FD_LENIENT}},
        {"1.234,5", "deen-IN", "1,234.5", {.read.count = 2, .format.start = 2, .format.count = 5}},
    };
    for (size_t i = 0; i < sizeof rows / sizeof *rows; i++) {
        const char *texts = rows[i].texts;
        fd_forms numbered = {by_number(rows[i].forms.read, texts), by_number(rows[i].forms.format, texts)};
        at_all_sizes(rows[i].text, &rows[i].forms, FD_NONE(fd_call), 0, texts, rows[i].result);
        at_all_sizes(rows[i].text, &numbered, FD_NONE(fd_call), 0, "", rows[i].result);
    }
    static const struct {
        const char *text, *texts;
        fd_forms forms;
        uint32_t status;
    } errors[] = {
        {"1", "tlh", {.format.count = 3}, FD_UNKNOWN_LOCALE},
        {"1", "tlh", {.read.count = 3}, FD_UNKNOWN_LOCALE},
        {"1", "\xff", {.format.count = 1}, FD_UNKNOWN_LOCALE},
        {"1", "de", {.format.start = 1, .format.count = 2}, FD_UNKNOWN_LOCALE},
        {"1", "de", {.format.count = 2, .format.option = 4}, FD_UNKNOWN_OPTION},
        {"1", "de", {.read.count = 2, .read.option = 2}, FD_UNKNOWN_OPTION},
        {"1,23", "en", {.read.count = 2}, FD_SYNTAX},
        {"\xff", "en", {.read.count = 2, .read.option = FD_LENIENT}, FD_SYNTAX},
        {"1,5", "de", {.format.count = 2}, FD_SYNTAX},
    };
    for (size_t i = 0; i < sizeof errors / sizeof *errors; i++) {
        uint8_t b[32];
        memset(b, 0x3C, 32);
        fd_result r = convert(errors[i].text, &errors[i].forms, FD_NONE(fd_call), 0, errors[i].texts, b, 32);
        CHECK(r.status == errors[i].status && r.count == 0 && all(b, 32, 0x3C));
    }
}

/* A number that is none: of no locale, of no numbering system, of no row of the system, and beyond all. */
static void test_other_numbers(void) {
    uint64_t german = fd_locale(B("de")).value;
    static const uint64_t others[] = {UINT64_MAX, 1ull << 49, 65536, 1 + (65535ull << 16), 1 + (65536ull << 32),
                                      (65537ull << 32) + 1, 1ull << 63};
    for (size_t i = 0; i < sizeof others / sizeof *others; i++) {
        uint8_t b[32];
        memset(b, 0x3C, 32);
        fd_forms forms = {.format.locale = others[i], .format.count = 2};
        fd_result r = convert("1", &forms, FD_NONE(fd_call), 0, "de", b, 32);
        CHECK(r.status == FD_UNKNOWN_LOCALE && r.at == 0 && r.count == 0 && all(b, 32, 0x3C));
        forms = (fd_forms){.read.locale = others[i], .format.locale = german};
        fd_column c = fd_lines(B("1\n"), 1, &forms, FD_NONE(fd_call), 0, B("de"), b, 32);
        CHECK(c.status == FD_UNKNOWN_LOCALE && c.lines == 0 && c.written == 0 && all(b, 32, 0x3C));
        fd_number n = fd_category_of(others[i], B("1"));
        CHECK(n.status == FD_UNKNOWN_LOCALE && n.at == 0 && n.value == 0);
    }
    CHECK(fd_category_of(0, B("1")).status == FD_UNKNOWN_LOCALE);
    CHECK(fd_category_of(131075, B("1")).status == FD_UNKNOWN_LOCALE);
    CHECK(fd_locale(B("tlh")).status == FD_UNKNOWN_LOCALE && fd_locale(B("tlh")).value == 0);
    CHECK(fd_locale(FD_NONE(uint8_t), 0).status == FD_UNKNOWN_LOCALE);
    CHECK(fd_locale(B("\xff")).status == FD_UNKNOWN_LOCALE);
    CHECK(fd_locale(B("de-u-nu-zzzz")).status == FD_UNKNOWN_LOCALE);
    CHECK(fd_locale(B("de_DE.UTF-8")).value == german && fd_locale(B("de-CH")).value != german);
}

/* Categories by CLDR 48. */
static void test_plural_rules(void) {
    static const struct {
        const char *tag, *text;
        uint32_t type, category;
    } rows[] = {
        {"en", "1", FD_CARDINAL, FD_ONE},      {"en", "1.0", FD_CARDINAL, FD_OTHER}, {"en", "22", FD_ORDINAL, FD_TWO},
        {"ru", "2", FD_CARDINAL, FD_FEW},      {"ru-RU", "5", FD_CARDINAL, FD_MANY}, {"ar", "0", FD_CARDINAL, FD_ZERO},
        {"en_GB.UTF-8", "3", FD_ORDINAL, FD_FEW}, {"pl", "5", FD_CARDINAL, FD_MANY}, {"ja", "1", FD_CARDINAL, FD_OTHER},
        {"tl", "4", FD_CARDINAL, FD_OTHER},    {"agq", "1", FD_CARDINAL, FD_OTHER},
    };
    for (size_t i = 0; i < sizeof rows / sizeof *rows; i++) {
        fd_unsigned rules = fd_plural_rules(BYTES(rows[i].tag), rows[i].type);
        CHECK(rules.status == FD_OK && rules.at == 0 && rules.value > 0 && rules.value < 1u << 18);
        fd_number n = fd_category_of(rules.value, BYTES(rows[i].text));
        CHECK(n.status == FD_OK && n.at == 0 && n.value == rows[i].category);
    }
    CHECK(fd_plural_rules(B("xx"), FD_CARDINAL).status == FD_UNKNOWN_LOCALE);
    CHECK(fd_plural_rules(B("\xff"), FD_ORDINAL).status == FD_UNKNOWN_LOCALE);
    CHECK(fd_plural_rules(B("en"), 2).status == FD_UNKNOWN_OPTION && fd_plural_rules(B("en"), 2).value == 0);
    uint64_t english = fd_plural_rules(B("en"), FD_CARDINAL).value;
    CHECK(fd_rules(B("en_GB.UTF-8")).value == english && fd_rules(B("en:cardinal")).value == english);
    CHECK(fd_rules(B("en:ordinal")).value == fd_plural_rules(B("en"), FD_ORDINAL).value);
    CHECK(fd_rules(B("xx")).status == FD_UNKNOWN_LOCALE && fd_rules(B("xx:ordinal")).status == FD_UNKNOWN_LOCALE);
    const char *others[] = {"", "one: i = 1", "en:nominal", "en:", "1", "e\xff", "en:ordinal:"};
    for (size_t i = 0; i < sizeof others / sizeof *others; i++)
        CHECK(fd_rules(BYTES(others[i])).status == FD_OK && fd_rules(BYTES(others[i])).value == 0);
    CHECK(fd_category_of(english, B("1x")).status == FD_SYNTAX);
    CHECK(fd_category_of(english, B("1e32768")).status == FD_LIMIT);
}

/* The column at each capacity: the lines that fit, and from where to go on. */
static void test_lines(void) {
    static const char input[] = "250\n\n-7\nx\n12345678901234567890\n5";
    static const char output[] = "2.50\n\n-0.07\n\n123456789012345678.90\n0.05\n";
    static const size_t ends[7] = {0, 5, 6, 12, 13, 35, 40}, reads[7] = {0, 4, 5, 8, 10, 31, 32};
    static const size_t failed[7] = {0, 0, 1, 1, 2, 2, 2};
    fd_call shift = {.kind = FD_SHIFT, .position = -2};
    for (size_t room = 0; room < sizeof output + 8; room++) {
        uint8_t *buffer = malloc(room ? room : 1);
        memset(buffer, 0xA5, room ? room : 1);
        fd_column c = fd_lines(B(input), 1, &own_text, &shift, 1, FD_NONE(uint8_t), 0, buffer, room);
        size_t n = 0;
        while (n < 6 && ends[n + 1] <= room) n++;
        CHECK(c.lines == n && c.read == reads[n] && c.written == ends[n] && c.failed == failed[n]);
        CHECK(c.status == (n == 6 ? FD_OK : FD_BUFFER_TOO_SMALL));
        CHECK(memcmp(buffer, output, c.written) == 0 && all(buffer + c.written, room - c.written, 0xA5));
        free(buffer);
    }
    uint8_t b[64];
    memset(b, 0xA5, 64);
    fd_column c = fd_lines(B("1\n2\n1e32768\n3"), 0, &own_text, &shift, 1, FD_NONE(uint8_t), 0, b, 64);
    CHECK(c.status == FD_LIMIT && c.lines == 2 && c.read == 4 && c.written == 10 && c.failed == 0);
    CHECK(memcmp(b, "0.01\n0.02\n", 10) == 0 && all(b + 10, 54, 0xA5));
    fd_forms forms = {.read.count = 2, .format.start = 2, .format.count = 5};
    c = fd_lines(B("1.234,5\n"), 0, &forms, FD_NONE(fd_call), 0, B("deen-IN"), b, 64);
    CHECK(c.status == FD_OK && c.lines == 1 && c.read == 8 && c.written == 8 && memcmp(b, "1,234.5\n", 8) == 0);
    c = fd_lines(FD_NONE(uint8_t), 0, 0, &own_text, &shift, 1, FD_NONE(uint8_t), 0, b, 0);
    CHECK(c.status == FD_OK && c.lines == 0 && c.read == 0 && c.written == 0);
    c = fd_lines(B("1\n"), 0, &forms, FD_NONE(fd_call), 0, B("zz"), b, 64);
    CHECK(c.status == FD_UNKNOWN_LOCALE && c.lines == 0 && c.written == 0);
    fd_call unknown = {.kind = 99};
    c = fd_lines(B("1\n"), 0, &own_text, &unknown, 1, FD_NONE(uint8_t), 0, b, 64);
    CHECK(c.status == FD_UNKNOWN_CALL && c.at == 0);
}

static void test_numbers(void) {
    CHECK(fd_compare(B("1.0"), B("1")).value == 0 && fd_compare(B("-2"), B("1")).value == -1);
    static const char *const ordered[] = {"-170141183460469231731.687303715884105728", "-1e2", "-0.000000000000000001",
                                          "-0.00", "0.10", "1", "1.50000000000000000000", "1e20"};
    for (size_t i = 0; i < 8; i++)
        for (size_t j = 0; j < 8; j++) {
            fd_keyed left = fd_key_of((const uint8_t *)ordered[i], strlen(ordered[i]));
            fd_keyed right = fd_key_of((const uint8_t *)ordered[j], strlen(ordered[j]));
            CHECK(left.status == FD_OK && right.status == FD_OK);
            CHECK(fd_compare_keys(&left.key, &right.key).value == (i > j) - (i < j));
        }
    fd_keyed key = fd_key_of(B("+1.000"));
    CHECK(key.key.high == 0 && key.key.low == 1000000000000000000u);
    CHECK(fd_key_of(B("0.0000000000000000001")).status == FD_NOT_WHOLE && fd_key_of(B("x")).status == FD_SYNTAX);
    CHECK(fd_key_of(B("170141183460469231731.687303715884105728")).status == FD_OUT_OF_RANGE);
    CHECK(fd_compare(B("3"), B("1")).value == 1 && fd_compare(B("x"), B("1")).at == 0);
    CHECK(fd_compare(B("1"), B("x")).status == FD_SYNTAX && fd_compare(B("1"), B("x")).at == 1);
    CHECK(fd_equal(B("1.0"), B("1")).value == 0 && fd_equal(B("-0"), B("0")).value == 0);
    CHECK(fd_equal(B("1.0e1"), B("10")).value == 1);
    CHECK(fd_sign(B("-0")).value == -1 && fd_sign(B("0")).value == 0 && fd_sign(B("+0")).value == 1);
    CHECK(fd_to_i64(B("-9223372036854775808.00")).value == INT64_MIN);
    CHECK(fd_to_i64(B("9223372036854775807")).value == INT64_MAX);
    CHECK(fd_to_i64(B("9223372036854775808")).status == FD_OUT_OF_RANGE);
    CHECK(fd_to_i64(B("0.5")).status == FD_NOT_WHOLE && fd_to_i64(B("0.5")).value == 0);
    CHECK(fd_to_u64(B("18446744073709551615")).value == UINT64_MAX);
    CHECK(fd_to_u64(B("-1")).status == FD_OUT_OF_RANGE);
    CHECK(fd_category(B("one: i = 1 and v = 0"), B("1")).value == FD_ONE);
    CHECK(fd_category(B("one: i = 1 and v = 0"), B("1.0")).value == FD_OTHER);
    CHECK(fd_category(B("n ="), B("1")).status == FD_RULES_SYNTAX);
    CHECK(fd_category(B("one: i = 99999999999999999999"), B("1")).status == FD_RULES_LIMIT);
    CHECK(fd_category(B("one: i = 1"), B("")).status == FD_SYNTAX);
    CHECK(fd_version() == FD_VERSION);
}

/* Options, with the defaults of Intl.NumberFormat for those that are not named. */
#pragma GCC diagnostic ignored "-Woverride-init"
#define OPTIONS(...)                                                                                         \
    {.rounding_mode = FD_HALF_EXPAND, .minimum_integer_digits = FD_DEFAULT,                                   \
     .minimum_fraction_digits = FD_DEFAULT, .maximum_fraction_digits = FD_DEFAULT,                            \
     .minimum_significant_digits = FD_DEFAULT, .maximum_significant_digits = FD_DEFAULT,                      \
     .rounding_increment = FD_DEFAULT, __VA_ARGS__}
#define MONEY(code) .style = FD_CURRENCY, .currency = code
#define FRACTION(least, most) .minimum_fraction_digits = least, .maximum_fraction_digits = most

/* Texts of Intl.NumberFormat in node, and of cash by CLDR's digits, at each capacity. */
static void test_format_number(void) {
    static const struct {
        const char *number, *tag;
        fd_number_options options;
        const char *text;
    } rows[] = {
        {"1234.5678", "en", FD_NUMBER_OPTIONS, "1,234.568"},
        {"-1234.565", "de", OPTIONS(MONEY("EUR")), "-1.234,57\xc2\xa0" "€"},
        {"0.125", "fr", OPTIONS(.style = FD_PERCENT, .scale = 2, FRACTION(FD_DEFAULT, 1)), "12,5\xc2\xa0%"},
        {"12", "en", OPTIONS(.style = FD_PERMILLE), "12‰"},
        {"1234567", "es", OPTIONS(.notation = FD_COMPACT_LONG), "1,2 millones"},
        {"1234567890123456789", "en", OPTIONS(.notation = FD_COMPACT_SHORT), "1,234,568T"},
        {"1234567890123456", "es", OPTIONS(.notation = FD_COMPACT_SHORT), "1235\xc2\xa0" "B"},
        {"-1234.5", "en", OPTIONS(MONEY("usd"), .currency_sign = FD_ACCOUNTING), "($1,234.50)"},
        {"-5", "en", OPTIONS(MONEY("USD"), .currency_sign = FD_ACCOUNTING, .sign_display = FD_NEVER), "$5.00"},
        {"1234.5", "ja", OPTIONS(MONEY("JPY"), .currency_display = FD_CODE), "JPY\xc2\xa0" "1,235"},
        {"1234.5", "en-CA", OPTIONS(MONEY("USD"), .currency_display = FD_NARROW_SYMBOL), "$1,234.50"},
        {"1234.5", "en", OPTIONS(MONEY("USD"), .currency_display = FD_HIDDEN), "1,234.50"},
        {"1234.5", "en", OPTIONS(.numbering_system = "arab            "), "١٬٢٣٤٫٥"},
        {"12.34", "en", OPTIONS(MONEY("CHF"), .currency_usage = FD_CASH), "CHF\xc2\xa0" "12.35"},
        {"12.34", "en", OPTIONS(MONEY("CHF"), .currency_usage = FD_CASH, .rounding_increment = 1),
         "CHF\xc2\xa0" "12.34"},
        {"123456", "en", OPTIONS(.notation = FD_SCIENTIFIC), "1.235E5"},
        {"123456", "en", OPTIONS(.notation = FD_ENGINEERING), "123.456E3"},
        {"0", "ar-EG", OPTIONS(.sign_display = FD_ALWAYS), "\xd8\x9c+٠"},
        {"-0.0001", "en", OPTIONS(.sign_display = FD_NEGATIVE), "0"},
        {"42", "en", OPTIONS(MONEY("usd"), .currency_display = FD_NAME), "42.00 US dollars"},
        {"1", "de", OPTIONS(MONEY("RUB"), .currency_display = FD_NAME, FRACTION(FD_DEFAULT, 0)), "1 Russischer Rubel"},
        {"5", "en", OPTIONS(.decimal_separator = FD_SEPARATOR_ALWAYS), "5."},
        {"12345.678", "hi", OPTIONS(.grouping = FD_GROUP_NEVER), "12345.678"},
        {"1234.5", "pl", OPTIONS(.grouping = FD_GROUP_ALWAYS), "1\xc2\xa0" "234,5"},
        {"1234.5", "en", OPTIONS(.grouping = FD_GROUP_MIN2), "1234.5"},
        {"1234.5678", "en", OPTIONS(.maximum_significant_digits = 3), "1,230"},
        {"1.5", "en", OPTIONS(.minimum_significant_digits = 4), "1.500"},
        {"1234.5678", "en", OPTIONS(FRACTION(2, 2), .rounding_mode = FD_FLOOR), "1,234.56"},
        {"1.23456", "en", OPTIONS(FRACTION(FD_DEFAULT, 2), .maximum_significant_digits = 2,
                                  .rounding_priority = FD_MORE_PRECISION), "1.23"},
        {"1.23456", "en", OPTIONS(FRACTION(FD_DEFAULT, 2), .maximum_significant_digits = 2,
                                  .rounding_priority = FD_LESS_PRECISION), "1.2"},
        {"5.00", "en", OPTIONS(FRACTION(2, FD_DEFAULT), .trailing_zeros = FD_STRIP_IF_INTEGER), "5"},
        {"7", "en", OPTIONS(.minimum_integer_digits = 3), "007"},
        {"1.27", "en", OPTIONS(FRACTION(2, 2), .rounding_increment = 5), "1.25"},
        {"2.5", "en", OPTIONS(FRACTION(FD_DEFAULT, 0), .rounding_mode = FD_HALF_EVEN), "2"}};
    for (size_t i = 0; i < sizeof rows / sizeof *rows; i++) {
        size_t n = strlen(rows[i].text);
        for (size_t room = 0; room < n + 9; room++) {
            uint8_t *buffer = malloc(room ? room : 1);
            memset(buffer, 0xA5, room ? room : 1);
            fd_result r = fd_format_number(BYTES(rows[i].number), BYTES(rows[i].tag), &rows[i].options, buffer, room);
            check_text(r, buffer, room, room, rows[i].text);
            free(buffer);
        }
    }
}

/* Texts of Intl.NumberFormat in node with units, by their names, at each capacity; and names that it does not have. */
static void test_units(void) {
    static const struct {
        const char *number, *tag, *unit;
        int is_pair;
        fd_number_options options;
        const char *text;
    } rows[] = {
        {"1234567.891", "en", "mile-per-gallon", 0, OPTIONS(.unit_display = FD_UNIT_SHORT), "1,234,567.891 mpg"},
        {"-0.5", "en", "liter-per-kilometer", 0, OPTIONS(.unit_display = FD_UNIT_SHORT), "-0.5 L/km"},
        {"5", "en", "percent-per-hour", 1, OPTIONS(.unit_display = FD_UNIT_LONG), "5 percent per hour"},
        {"100", "de", "mile-scandinavian-per-liter", 1, OPTIONS(.unit_display = FD_UNIT_LONG),
         "100 skandinavische Meilen pro Liter"},
        {"20", "fr", "hectare", 0, OPTIONS(.unit_display = FD_UNIT_NARROW), "20ha"},
        {"3", "pl", "degree", 0, OPTIONS(.unit_display = FD_UNIT_LONG), "3 stopnie"},
        {"1.0", "pl", "day", 0, OPTIONS(.unit_display = FD_UNIT_LONG), "1 dzień"},
        {"1.5", "pl", "celsius", 0, OPTIONS(.unit_display = FD_UNIT_LONG), "1,5 stopnia Celsjusza"},
        {"22", "ar", "meter-per-meter", 1, OPTIONS(.unit_display = FD_UNIT_NARROW), "22 م/م"},
        {"1234567.891", "hi", "gram", 0, OPTIONS(.unit_display = FD_UNIT_LONG), "12,34,567.891 ग्राम"},
        {"3", "ja", "second-per-gallon", 1, OPTIONS(.unit_display = FD_UNIT_NARROW), "3s/gal"},
        {"21", "en", "percent", 0, OPTIONS(.unit_display = FD_UNIT_SHORT), "21%"},
        {"-1", "ar", "hour-per-byte", 1, OPTIONS(.unit_display = FD_UNIT_LONG), "ساعة لكل بايت"},
        {"1500000", "hi", "hectare", 0, OPTIONS(.unit_display = FD_UNIT_LONG, .notation = FD_COMPACT_LONG,
         .sign_display = FD_ALWAYS, .trailing_zeros = FD_STRIP_IF_INTEGER, FRACTION(1, FD_DEFAULT)),
         "+15 लाख हेक्टेयर"},
        {"22", "en", "second", 0, OPTIONS(.unit_display = FD_UNIT_NARROW, .notation = FD_ENGINEERING), "22E0s"}};
    static const char *const others[] = {
        "", "foo", "Meter", "meters", "m", "meter ", "furlong", "tonne", "square-meter", "kilowatt-hour", "permille",
        "knot", "meter-per-foo", "foo-per-meter", "meter-per-", "-per-meter", "per-meter",
        "meter-per-second-per-second", "meter-per-square-second", "liter-per-100-kilometer", "meter-PER-second",
        "meter per second", "meter/second", "day-person", "foot-and-inch", "length-meter", "unit/meter",
        "m\xc3\xa9" "ter"};
    for (size_t i = 0; i < sizeof rows / sizeof *rows; i++) {
        fd_units units = fd_unit(BYTES(rows[i].unit));
        fd_number_options options = rows[i].options;
        CHECK(units.status == FD_OK && units.unit > 0 && (units.per_unit > 0) == rows[i].is_pair);
        options.style = FD_UNIT, options.unit = units.unit, options.per_unit = units.per_unit;
        size_t n = strlen(rows[i].text);
        for (size_t room = 0; room < n + 9; room++) {
            uint8_t *buffer = malloc(room ? room : 1);
            memset(buffer, 0xA5, room ? room : 1);
            fd_result r = fd_format_number(BYTES(rows[i].number), BYTES(rows[i].tag), &options, buffer, room);
            check_text(r, buffer, room, room, rows[i].text);
            free(buffer);
        }
    }
    for (size_t i = 0; i < sizeof others / sizeof *others; i++) {
        fd_units units = fd_unit(BYTES(others[i]));
        CHECK(units.status == FD_UNKNOWN_UNIT && units.unit == 0 && units.per_unit == 0);
    }
    CHECK(fd_unit(B("meter\0")).status == FD_UNKNOWN_UNIT && fd_unit(B("\xff")).status == FD_UNKNOWN_UNIT);
    /* Each number of a unit has a name; and the name of a unit of Intl.NumberFormat has its number. */
    size_t units = 0, named = 0;
    for (uint32_t number = 0; number < 1000; number++) {
        uint8_t name[40];
        memset(name, 0xA5, sizeof name);
        fd_result r = fd_unit_name(number, name, sizeof name);
        CHECK(r.status == FD_OK || (r.status == FD_UNKNOWN_OPTION && r.count == 0 && all(name, 40, 0xA5)));
        if (r.status != FD_OK) continue;
        fd_units found = fd_unit(name, r.count);
        CHECK(number > 0 && number < 256 && (found.status != FD_OK || (found.unit == number && found.per_unit == 0)));
        units++, named += found.status == FD_OK;
        CHECK(fd_unit_name(number, name, r.count - 1).status == FD_BUFFER_TOO_SMALL);
    }
    CHECK(units == 230 && named == 50);
    uint8_t none[1];
    CHECK(fd_unit_name(UINT32_MAX, none, 0).status == FD_UNKNOWN_OPTION);
}

/* The same texts are read, exactly and as people type them. */
static void test_read_number(void) {
    static const struct {
        const char *text, *tag;
        fd_number_options options;
        uint32_t lenient, status;
        const char *own;
    } rows[] = {
        {"-1.234,57\xc2\xa0" "€", "de", OPTIONS(MONEY("EUR")), 0, FD_OK, "-1234.57"},
        {"12,5\xc2\xa0%", "fr", OPTIONS(.style = FD_PERCENT, .scale = 2), 0, FD_OK, "0.125"},
        {"EUR 1.234,5", "de", OPTIONS(MONEY("EUR")), 1, FD_OK, "1234.5"},
        {"EUR 1.234,5", "de", OPTIONS(MONEY("EUR")), 0, FD_SYNTAX, ""},
        {"1", "vec", OPTIONS(.notation = FD_COMPACT_SHORT), 1, FD_UNREADABLE_FORMAT, ""},
        {"mille", "fr", OPTIONS(.notation = FD_COMPACT_LONG), 0, FD_OK, "1000"},
        {"-1,25\xc2\xa0Mio.", "de", OPTIONS(.notation = FD_COMPACT_SHORT), 0, FD_OK, "-1250000"},
        {"1250 Tausend", "de", OPTIONS(.notation = FD_COMPACT_LONG), 0, FD_SYNTAX, ""},
        {"1250 Tausend", "de", OPTIONS(.notation = FD_COMPACT_LONG), 1, FD_OK, "1250000"},
        {"$1.2M", "en", OPTIONS(MONEY("USD"), .notation = FD_COMPACT_SHORT), 0, FD_OK, "1200000"},
        {"1", "xx", OPTIONS(.notation = FD_COMPACT_SHORT), 0, FD_UNKNOWN_LOCALE, ""},
        {"x", "xx", OPTIONS(.style = 5), 0, FD_UNKNOWN_OPTION, ""},
        {"1,50 Euro", "de", OPTIONS(MONEY("EUR"), .currency_display = FD_NAME), 0, FD_OK, "1.50"},
        {"1,50 €", "de", OPTIONS(MONEY("EUR"), .currency_display = FD_NAME), 1, FD_OK, "1.50"}};
    for (size_t i = 0; i < sizeof rows / sizeof *rows; i++) {
        for (size_t room = 0, n = strlen(rows[i].own); room < n + 9; room++) {
            uint8_t buffer[40];
            memset(buffer, 0xA5, sizeof buffer);
            fd_result r = fd_read_number(BYTES(rows[i].text), BYTES(rows[i].tag), &rows[i].options, rows[i].lenient,
                                         buffer, room);
            if (rows[i].status != FD_OK) CHECK(r.status == rows[i].status && r.count == 0 && all(buffer, 40, 0xA5));
            else check_text(r, buffer, 40, room, rows[i].own);
        }
    }
}

/* Words that no option has, and numbers of digits that Intl.NumberFormat refuses, before what else is wrong. */
static void test_option_errors(void) {
    static const struct {
        fd_number_options options;
        uint32_t status, at;
    } rows[] = {
        {OPTIONS(.style = 5), FD_UNKNOWN_OPTION, 0},
        {OPTIONS(.style = FD_UNIT), FD_UNKNOWN_OPTION, 0},
        {OPTIONS(.style = FD_UNIT, .unit = 231), FD_UNKNOWN_OPTION, 0},
        {OPTIONS(.style = FD_UNIT, .unit = 255, .per_unit = 255), FD_UNKNOWN_OPTION, 0},
        {OPTIONS(MONEY("E1R")), FD_UNKNOWN_OPTION, 0},
        {OPTIONS(.style = FD_CURRENCY), FD_UNKNOWN_OPTION, 0},
        {OPTIONS(MONEY("EUR"), .currency_display = 5), FD_UNKNOWN_OPTION, 0},
        {OPTIONS(MONEY("EUR"), .currency_sign = 2), FD_UNKNOWN_OPTION, 0},
        {OPTIONS(MONEY("EUR"), .currency_usage = 2), FD_UNKNOWN_OPTION, 0},
        {OPTIONS(.notation = 5), FD_UNKNOWN_OPTION, 0},
        {OPTIONS(.sign_display = 5), FD_UNKNOWN_OPTION, 0},
        {OPTIONS(.grouping = 4), FD_UNKNOWN_OPTION, 0},
        {OPTIONS(.decimal_separator = 2), FD_UNKNOWN_OPTION, 0},
        {OPTIONS(.rounding_mode = 9), FD_UNKNOWN_OPTION, 0},
        {OPTIONS(.rounding_priority = 3), FD_UNKNOWN_OPTION, 0},
        {OPTIONS(.trailing_zeros = 2), FD_UNKNOWN_OPTION, 0},
        {OPTIONS(.numbering_system = "la              "), FD_UNKNOWN_OPTION, 0},
        {OPTIONS(.numbering_system = "arab-x          "), FD_UNKNOWN_OPTION, 0},
        {OPTIONS(.numbering_system = "arab"), FD_UNKNOWN_OPTION, 0},
        {OPTIONS(.minimum_integer_digits = 22, .rounding_increment = 3), FD_DIGIT_OPTIONS, FD_INTEGER_DIGITS},
        {OPTIONS(.minimum_integer_digits = 0), FD_DIGIT_OPTIONS, FD_INTEGER_DIGITS},
        {OPTIONS(.rounding_increment = 3), FD_DIGIT_OPTIONS, FD_INCREMENT},
        {OPTIONS(.maximum_significant_digits = 22), FD_DIGIT_OPTIONS, FD_SIGNIFICANT_DIGITS},
        {OPTIONS(FRACTION(FD_DEFAULT, 101)), FD_DIGIT_OPTIONS, FD_FRACTION_DIGITS},
        {OPTIONS(FRACTION(3, 2)), FD_DIGIT_OPTIONS, FD_FRACTION_DIGITS},
        {OPTIONS(.rounding_increment = 5, .maximum_significant_digits = 2), FD_DIGIT_OPTIONS, FD_INCREMENT_PRECISION},
        {OPTIONS(.rounding_increment = 5, FRACTION(1, 2)), FD_DIGIT_OPTIONS, FD_INCREMENT_DIGITS}};
    for (size_t i = 0; i < sizeof rows / sizeof *rows; i++) {
        uint8_t buffer[32];
        memset(buffer, 0x5A, sizeof buffer);
        fd_result r = fd_format_number(B("x"), B("xx"), &rows[i].options, buffer, 32);
        CHECK(r.status == rows[i].status && r.at == rows[i].at && r.count == 0 && all(buffer, 32, 0x5A));
        r = fd_skeleton(&rows[i].options, buffer, 32);
        CHECK(r.status == rows[i].status && r.at == rows[i].at && r.count == 0 && all(buffer, 32, 0x5A));
    }
    /* Of the options of a currency or of a unit other styles have none. */
    fd_number_options plain = OPTIONS(.currency_display = 9, .currency_sign = 9, .currency_usage = 9, .unit = 255,
                                      .per_unit = 255, .unit_display = 9);
    uint8_t buffer[8];
    CHECK(gives(fd_format_number(B("5"), B("en"), &plain, buffer, 8), buffer, "5"));
    CHECK(fd_format_number(B("x"), B("xx"), &plain, buffer, 8).status == FD_UNKNOWN_LOCALE);
    CHECK(fd_format_number(B("x"), B("en"), &plain, buffer, 8).status == FD_SYNTAX);
    memcpy(plain.numbering_system, "roman           ", 16);
    CHECK(fd_format_number(B("x"), B("en"), &plain, buffer, 8).status == FD_UNKNOWN_NUMBERING_SYSTEM);
    CHECK(fd_format_number(B("x"), B("xx"), &plain, buffer, 8).status == FD_UNKNOWN_LOCALE);
    plain.numbering_system[0] = 0;
    /* Units that Intl.NumberFormat does not have, alone or as the second of two. */
    for (uint32_t number = 1; number < 256; number++) {
        uint8_t name[40] = {0};
        fd_result named = fd_unit_name(number, name, sizeof name);
        int is_unit = named.status == FD_OK && fd_unit(name, named.count).status == FD_OK;
        fd_number_options unit = OPTIONS(.style = FD_UNIT, .unit = (uint8_t)number);
        CHECK(fd_format_number(B("x"), B("en"), &unit, buffer, 8).status == (is_unit ? FD_SYNTAX : FD_UNKNOWN_OPTION));
        unit.per_unit = unit.unit, unit.unit = fd_unit(B("meter")).unit;
        int is_part = is_unit && !strstr((char *)name, "-per-");
        CHECK(fd_format_number(B("x"), B("en"), &unit, buffer, 8).status == (is_part ? FD_SYNTAX : FD_UNKNOWN_OPTION));
    }
    plain.scale = 1;
    CHECK(fd_format_number(B("1e32767"), B("en"), &plain, buffer, 8).status == FD_OVERFLOW);
}

/* The skeleton of options writes what they write. Amounts in accounting without a sign have none. */
static void test_skeletons_of_options(void) {
    static const struct {
        fd_number_options options;
        const char *skeleton;
    } rows[] = {
        {OPTIONS(MONEY("eur"), FRACTION(2, 2), .rounding_mode = FD_HALF_EVEN), "currency/EUR .00"},
        {OPTIONS(.style = FD_PERCENT, .scale = 2, FRACTION(0, 0), .rounding_mode = FD_HALF_EVEN), "%x100 ."},
        {OPTIONS(.scale = -12000, FRACTION(0, 6), .rounding_mode = FD_HALF_EVEN), "scale/1e-12000"},
        {OPTIONS(.notation = FD_COMPACT_SHORT, .rounding_mode = FD_HALF_EVEN), "K"}};
    fd_number_options unsigned_amounts =
        OPTIONS(MONEY("USD"), .currency_sign = FD_ACCOUNTING, .sign_display = FD_NEVER);
    CHECK(fd_skeleton(&unsigned_amounts, (uint8_t[64]){0}, 64).status == FD_NO_SKELETON);
    for (size_t i = 0; i < sizeof rows / sizeof *rows; i++) {
        uint8_t buffer[64], first[64], second[64];
        size_t n = fd_skeleton(&rows[i].options, buffer, 0).count;
        CHECK(fd_skeleton(&rows[i].options, buffer, n - 1).status == FD_BUFFER_TOO_SMALL);
        CHECK(fd_skeleton(&rows[i].options, buffer, 64).count == n);
        fd_result r = fd_format_number(B("-98765.4321"), B("de"), &rows[i].options, first, 64);
        CHECK(fd_format_by_skeleton(B("-98765.4321"), B("de"), buffer, n, second, 64).count == r.count);
        CHECK(r.status == FD_OK && memcmp(first, second, r.count) == 0);
        CHECK(fd_format_by_skeleton(B("-98765.4321"), B("de"), BYTES(rows[i].skeleton), second, 64).count == r.count);
        CHECK(memcmp(first, second, r.count) == 0);
    }
}

static fd_result format_by_skeleton(const char *text, const char *tag, const char *skeleton, uint8_t *buffer,
                                    size_t room) {
    return fd_format_by_skeleton(BYTES(text), BYTES(tag), BYTES(skeleton), buffer, room);
}

/* The same after calls on the text, by the form of a tag and a skeleton; white space alone is the empty skeleton. */
static fd_result convert_number(const char *text, const char *tag, const char *skeleton, const fd_call *calls,
                                size_t call_count, uint8_t *buffer, size_t room) {
    char texts[100];
    int count = snprintf(texts, sizeof texts, "%s%s", tag, *skeleton ? skeleton : " ");
    fd_forms forms = {.format = {.count = strlen(tag), .skeleton_start = strlen(tag)}};
    forms.format.skeleton_count = (size_t)count - strlen(tag);
    return fd_convert(BYTES(text), &forms, calls, call_count, (const uint8_t *)texts, (size_t)count, buffer, room);
}

/* Texts of ICU, at each capacity. */
static void test_format_by_skeleton(void) {
    static const char *const rows[][4] = {
        /* number, tag, skeleton, text */
        {"1234567", "de", "currency/INR", "1.234.567,00\xc2\xa0" "₹"},
        {"-1234.5", "de", "currency/USD", "-1.234,50\xc2\xa0" "$"},
        {"0.045", "it", "currency/USD", "0,04\xc2\xa0" "USD"},
        {"-1234.5", "tr", "currency/JPY", "-¥1.234"},
        {"999999", "hi", "currency/JPY", "JP¥9,99,999"},
        {"5300000", "uk", "percent", "5\xc2\xa0" "300\xc2\xa0" "000%"},
        {"-2.5", "uk", "K", "-2,5"},
        {"1000000000000000", "pt-PT", "currency/USD",
         "1\xc2\xa0" "000\xc2\xa0" "000\xc2\xa0" "000\xc2\xa0" "000\xc2\xa0" "000,00\xc2\xa0" "US$"},
        {"5300000", "he", "currency/JPY", "\xe2\x80\x8f" "5,300,000\xc2\xa0" "\xe2\x80\x8f" "¥"},
        {"-1234.5", "es", "KK", "-1,2 mil"},
        {"999999", "fr", "currency/INR", "999\xe2\x80\xaf" "999,00\xc2\xa0" "₹"},
        {"-1234.5", "en", "", "-1,234.5"},
        {"12.345", "en", "compact-long", "12"},
        {"123456789012345.678", "en", "%x100 scientific", "1.234568E16%"},
        {"-1234.5", "en", "sign-accounting-always", "-1,234.5"},
        {"12.345", "en", "precision-increment/0.05 rounding-mode-half-up", "12.35"},
        {"12.345", "en", ".0 +? unit-width-narrow numbering-system/beng", "+১২.৩"},
        {"1234567", "en", "+- K", "1.2M"},
        {"123456789012345.678", "en", "currency/SEK rounding-mode-half-up precision-increment/50",
         "SEK\xc2\xa0" "123,456,789,012,350"},
        {"-3.5", "en", "%x100 sign-never numbering-system/arabext", "۳۵۰٪"},
        {"999999", "en", ".0# K currency/CLF", "CLF\xc2\xa0" "1.0M"},
        {"123456789012345.678", "en", "@@@/w sign-accounting-always rounding-mode-ceiling", "+124,000,000,000,000"},
        {"0.045", "ne", "notation-simple", "०.०४५"},
        {"12.345", "ja", "compact-short", "12"},
        {"12.345", "ta", "compact-short", "12"},
        {"1000", "fr-CH", "compact-long", "mille"},
        {"-3.5", "my", "compact-long", "-၃.၅"},
        {"-2.5", "zh-Hant", "scientific", "-2.5E0"},
        {"1500", "is", "scientific", "1,5E3"},
        {"123456789012345.678", "sw", "scientific/sign-accounting-negative", "1.234568E14"}};
    for (size_t i = 0; i < sizeof rows / sizeof *rows; i++) {
        size_t n = strlen(rows[i][3]);
        for (size_t room = 0; room < n + 9; room++) {
            uint8_t *buffer = malloc(room ? room : 1);
            memset(buffer, 0xA5, room ? room : 1);
            for (int by_form = 0; by_form < 2; by_form++) {
                fd_result r =
                    by_form ? convert_number(rows[i][0], rows[i][1], rows[i][2], FD_NONE(fd_call), 0, buffer, room)
                            : format_by_skeleton(rows[i][0], rows[i][1], rows[i][2], buffer, room);
                check_text(r, buffer, room, room, rows[i][3]);
            }
            free(buffer);
        }
    }
}

static void test_skeleton_errors(void) {
    static const struct {
        const char *text, *tag, *skeleton;
        uint32_t status;
        size_t at;
    } rows[] = {
        {"x", "xx", "percent/w", FD_SKELETON_SYNTAX, 7},
        {"1", "en", ".00 currency/E", FD_SKELETON_SYNTAX, 13},
        {"1", "en", "\xff", FD_SKELETON_SYNTAX, 0},
        {"1", "en", "percent/w .00 \xe2\x82", FD_SKELETON_SYNTAX, 14},
        {"x", "xx", ".00 rounding-mode-half-odd", FD_SKELETON_UNSUPPORTED, 4},
        {"x", "xx", "percent", FD_UNKNOWN_LOCALE, 0},
        {"x", "\xff", "", FD_UNKNOWN_LOCALE, 0},
        {"x", "en", "percent", FD_SYNTAX, 0},
        {"1e32768", "en", "percent", FD_LIMIT, 0},
        {"1e32767", "en", "scale/100", FD_OVERFLOW, 0},
        {"9e32767", "en", "scale/100 scientific", FD_OVERFLOW, 0}};
    for (size_t i = 0; i < sizeof rows / sizeof *rows; i++) {
        uint8_t buffer[32];
        memset(buffer, 0x5A, sizeof buffer);
        fd_result r = format_by_skeleton(rows[i].text, rows[i].tag, rows[i].skeleton, buffer, 32);
        CHECK(r.status == rows[i].status && r.at == rows[i].at && r.count == 0 && all(buffer, 32, 0x5A));
        r = convert_number(rows[i].text, rows[i].tag, rows[i].skeleton, FD_NONE(fd_call), 0, buffer, 32);
        CHECK(r.status == rows[i].status && r.at == rows[i].at && r.count == 0 && all(buffer, 32, 0x5A));
    }
}

/* Texts of ICU are read, at each capacity; each error. */
static void test_read_by_skeleton(void) {
    static const struct {
        const char *text, *tag, *skeleton;
        uint32_t lenient, status;
        const char *own;
    } rows[] = {
        {"-1.234,50\xc2\xa0" "€", "de", "currency/EUR", 0, FD_OK, "-1234.50"},
        {"1234,5\xc2\xa0" "€", "de", "currency/EUR", 0, FD_OK, "1234.5"},
        {"12.5%", "en", "%x100 .0#", 0, FD_OK, "0.125"},
        {"($1,234.50)", "en", "currency/USD sign-accounting", 0, FD_OK, "-1234.50"},
        {"₹१२,३४,५६७.५०", "hi-u-nu-deva", "currency/INR", 0, FD_OK, "1234567.50"},
        {"CHF+1'234.50", "de-CH", "currency/CHF +!", 0, FD_OK, "+1234.50"},
        {"-1,234.50", "en", "", 0, FD_OK, "-1234.50"},
        {"EUR 1.234,5", "de", "currency/EUR", 1, FD_OK, "1234.5"},
        {"50%", "fr", "%x100", 1, FD_OK, "0.50"},
        {"EUR 1.234,5", "de", "currency/EUR", 0, FD_SYNTAX, NULL},
        {"1 USD", "de", "currency/EUR", 1, FD_SYNTAX, NULL},
        {"\xff", "de", "percent", 1, FD_SYNTAX, NULL},
        {"-1.25E3", "en", "scientific", 0, FD_OK, "-1250"},
        {"12,5E-3", "de", "engineering", 0, FD_OK, "0.0125"},
        {"12E3", "en", "scientific", 0, FD_SYNTAX, NULL},
        {"x", "en", "scientific/sign-never", 0, FD_UNREADABLE_FORMAT, NULL},
        {"1,2\xc2\xa0mil", "es", "K", 0, FD_OK, "1200"},
        {"1200", "es", "K", 0, FD_SYNTAX, NULL},
        {"1200", "es", "K", 1, FD_OK, "1200"},
        {"x", "vec", "K", 1, FD_UNREADABLE_FORMAT, NULL},
        {"mille", "fr", "KK", 0, FD_OK, "1000"},
        {"-mille", "fr", "KK", 0, FD_SYNTAX, NULL},
        {"-mille", "it", "KK", 0, FD_OK, "-1000"},
        {"x", "xx", "K", 0, FD_UNKNOWN_LOCALE, NULL},
        {"x", "xx", "percent/w", 0, FD_SKELETON_SYNTAX, NULL}};
    for (size_t i = 0; i < sizeof rows / sizeof *rows; i++) {
        const char *own = rows[i].own ? rows[i].own : "";
        for (size_t room = 0, n = strlen(own); room < n + 9; room++) {
            uint8_t buffer[40];
            memset(buffer, 0xA5, sizeof buffer);
            fd_result r = fd_read_by_skeleton(BYTES(rows[i].text), BYTES(rows[i].tag), BYTES(rows[i].skeleton),
                                              rows[i].lenient, buffer, room);
            if (rows[i].status != FD_OK) CHECK(r.status == rows[i].status && r.count == 0 && all(buffer, 40, 0xA5));
            else check_text(r, buffer, 40, room, own);
        }
    }
}

/* Forms with a skeleton: after calls, in a column, and where they are none. */
static void test_skeleton_forms(void) {
    uint8_t b[64];
    fd_call calls[2] = {{.kind = FD_SHIFT, .position = 1}, {.kind = FD_TRIM_END}};
    CHECK(gives(convert_number("123.45", "de", "currency/EUR", calls, 2, b, 64), b, "1.234,50\xc2\xa0" "€"));
    fd_result r = convert_number("1e32766", "en", "scale/100", calls, 2, b, 64);
    CHECK(r.status == FD_OVERFLOW && r.at == 2);
    r = convert_number("1e32767", "en", "scale/100", calls, 2, b, 64);
    CHECK(r.status == FD_OVERFLOW && r.at == 0);
    fd_forms forms = {.read.count = 2, .format = {.count = 2, .skeleton_start = 2, .skeleton_count = 1}};
    fd_column c = fd_lines(B("1.234,5\nx\n5300000"), 1, &forms, FD_NONE(fd_call), 0, B("deK"), b, 64);
    CHECK(c.status == FD_OK && c.lines == 3 && c.failed == 1 && c.written == 16);
    CHECK(memcmp(b, "1234\n\n5,3\xc2\xa0Mio.\n", 16) == 0);
    forms.format.skeleton_start = 3;
    CHECK(fd_convert(B("x"), &forms, FD_NONE(fd_call), 0, B("deK"), b, 64).status == FD_SKELETON_SYNTAX);
    forms.format = (fd_form){.start = 3, .count = 1, .skeleton_start = 2, .skeleton_count = 1};
    CHECK(fd_convert(B("x"), &forms, FD_NONE(fd_call), 0, B("deK"), b, 64).status == FD_UNKNOWN_LOCALE);
    forms.read = (fd_form){.count = 3, .skeleton_start = 3, .skeleton_count = 1};
    CHECK(fd_convert(B("x"), &forms, FD_NONE(fd_call), 0, B("vecK"), b, 64).status == FD_UNREADABLE_FORMAT);
    forms.read.count = 2;
    CHECK(fd_convert(B("x"), &forms, FD_NONE(fd_call), 0, B("deK"), b, 64).status == FD_SKELETON_SYNTAX);
}

/* Amounts and percentages are read in forms with a skeleton, exactly and leniently. */
static void test_read_forms(void) {
    uint8_t b[64];
    fd_forms forms = {.read = {.count = 2, .skeleton_start = 2, .skeleton_count = 12}};
    fd_call shift = {.kind = FD_SHIFT, .position = 2};
    const char *texts = "decurrency/EUR";
    CHECK(gives(fd_convert(B("-1.234,50\xc2\xa0" "€"), &forms, &shift, 1, BYTES(texts), b, 64), b, "-123450"));
    CHECK(fd_convert(B("EUR 5"), &forms, FD_NONE(fd_call), 0, BYTES(texts), b, 64).status == FD_SYNTAX);
    forms.read.option = FD_LENIENT;
    fd_column c = fd_lines(B("EUR 1.234,5\n1 USD\n7"), 1, &forms, FD_NONE(fd_call), 0, BYTES(texts), b, 64);
    CHECK(c.status == FD_OK && c.lines == 3 && c.failed == 1 && c.written == 10);
    CHECK(memcmp(b, "1234.5\n\n7\n", 10) == 0);
    forms.read.option = 2;
    CHECK(fd_convert(B("x"), &forms, FD_NONE(fd_call), 0, BYTES(texts), b, 64).status == FD_UNKNOWN_OPTION);
    forms.read = (fd_form){.start = 2, .count = 12, .skeleton_start = 2, .skeleton_count = 12};
    CHECK(fd_convert(B("x"), &forms, FD_NONE(fd_call), 0, BYTES(texts), b, 64).status == FD_UNKNOWN_LOCALE);
}

/* Each kind of word, its offsets, and the zeros of what it does not use. */
static void test_words(void) {
    static const struct { const char *word; fd_word is; } rows[] = {
        {"shift:-2", {.kind = FD_CALL_WORD, .call = {.kind = FD_SHIFT, .position = -2}}},
        {"trim-start", {.kind = FD_CALL_WORD, .call = {.kind = FD_TRIM_START}}},
        {"trim-end", {.kind = FD_CALL_WORD, .call = {.kind = FD_TRIM_END}}},
        {"trim-end-if-integer", {.kind = FD_CALL_WORD, .call = {.kind = FD_TRIM_END_IF_INTEGER}}},
        {"pad-start:32767", {.kind = FD_CALL_WORD, .call = {.kind = FD_PAD_START, .position = 32767}}},
        {"pad-end:-32768", {.kind = FD_CALL_WORD, .call = {.kind = FD_PAD_END, .position = -32768}}},
        {"max:000003", {.kind = FD_CALL_WORD, .call = {.kind = FD_MAX, .position = 3}}},
        {"round:-2:half-even:25", {.kind = FD_CALL_WORD, .call = {FD_ROUND, FD_HALF_EVEN, 25, -2, 0, 0}}},
        {"sign:plus", {.kind = FD_CALL_WORD, .call = {.kind = FD_SIGN, .option = FD_PLUS}}},
        {"display:except-zero", {.kind = FD_CALL_WORD, .call = {.kind = FD_DISPLAY, .option = FD_EXCEPT_ZERO}}},
        {"concat:", {.kind = FD_CALL_WORD, .call = {.kind = FD_CONCAT, .text_start = 7}}},
        {"concat:a:b", {.kind = FD_CALL_WORD, .call = {.kind = FD_CONCAT, .text_start = 7, .text_count = 3}}},
        {"read:de", {.form = {.start = 5, .count = 2}}},
        {"read:de_CH.UTF-8:lenient", {.form = {.start = 5, .count = 11, .option = FD_LENIENT}}},
        {"read:de:K", {.form = {.start = 5, .count = 2, .skeleton_start = 8, .skeleton_count = 1}}},
        {"read:de:lenient:%:x", {.form = {0, 5, 2, 16, 3, FD_LENIENT}}},
        {"read::K", {.form = {.start = 5, .skeleton_start = 6, .skeleton_count = 1}}},
        {"format:xx", {.kind = FD_FORMAT_WORD, .form = {.start = 7, .count = 2}}},
        {"format:en:min2", {.kind = FD_FORMAT_WORD, .form = {.start = 7, .count = 2, .option = FD_GROUP_MIN2}}},
        {"format:en:Never", {.kind = FD_FORMAT_WORD, .form = {0, 7, 2, 10, 5, 0}}},
        {"format:en:never:", {.kind = FD_FORMAT_WORD, .form = {0, 7, 2, 10, 6, 0}}},
        {"read:", {.status = FD_UNKNOWN_LOCALE}}, {"read::lenient", {.status = FD_UNKNOWN_LOCALE}},
        {"format:", {.status = FD_UNKNOWN_LOCALE}}, {"format::never", {.status = FD_UNKNOWN_LOCALE}},
        {"", {.status = FD_UNKNOWN_CALL}}, {"read", {.status = FD_UNKNOWN_CALL}},
        {"read:de:", {.status = FD_UNKNOWN_CALL}}, {"read:de:lenient:", {.status = FD_UNKNOWN_CALL}},
        {"format:de:", {.status = FD_UNKNOWN_CALL}}, {"format::", {.status = FD_UNKNOWN_CALL}},
        {"shift:4294967298", {.status = FD_UNKNOWN_CALL}}, {"shift:+2", {.status = FD_UNKNOWN_CALL}},
        {"shift: 2", {.status = FD_UNKNOWN_CALL}}, {"shift:32768", {.status = FD_UNKNOWN_CALL}},
        {"round:0:ceil:3", {.status = FD_UNKNOWN_CALL}}, {"concat:\xff", {.status = FD_UNKNOWN_CALL}}};
    for (size_t i = 0; i < sizeof rows / sizeof *rows; i++) {
        fd_word word = fd_parse_word(BYTES(rows[i].word)), is = rows[i].is;
        CHECK(word.status == is.status && word.kind == is.kind && word.call.kind == is.call.kind);
        CHECK(word.call.option == is.call.option && word.call.increment == is.call.increment);
        CHECK(word.call.position == is.call.position && word.call.text_start == is.call.text_start);
        CHECK(word.call.text_count == is.call.text_count && word.form.locale == 0 && word.form.start == is.form.start);
        CHECK(word.form.count == is.form.count && word.form.option == is.form.option);
        CHECK(word.form.skeleton_start == is.form.skeleton_start);
        CHECK(word.form.skeleton_count == is.form.skeleton_count);
    }
    CHECK(fd_parse_word(B("trim-end\0")).status == FD_UNKNOWN_CALL);
}

int main(void) {
    test_words();
    test_calls();
    test_errors();
    test_long_texts();
    test_locales();
    test_other_numbers();
    test_plural_rules();
    test_lines();
    test_numbers();
    test_format_number();
    test_units();
    test_read_number();
    test_option_errors();
    test_skeletons_of_options();
    test_format_by_skeleton();
    test_skeleton_errors();
    test_read_by_skeleton();
    test_skeleton_forms();
    test_read_forms();
    return report();
}
