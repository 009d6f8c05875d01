/* Formatters that are kept: their texts beside those of the functions that make one each time, parts at each capacity,
 * options, columns, lines of statuses, and any bytes as a formatter. */
#include "check.h"

static int same(fd_result a, fd_result b) {
    return a.status == b.status && a.at == b.at && a.count == b.count;
}

static const char *const tags[] = {
    "en", "de", "hi", "ar-EG", "ja", "de-CH", "fa-u-nu-latn", "hi-u-nu-deva", "xx", "\xff"};
static const char *const numbers[] = {
    "1234.5", "-1234567.891", "0", "-0.00", "+12", "1e32767", "999999.995", "x", "1e32768"};
static const char *const skeletons[] = {
    "", "currency/EUR", "currency/JPY unit-width-iso-code", "percent @@", "%x100 .0", "K", "KK +!", "scientific/*ee/+!",
    "engineering @@@", "currency/CHF precision-currency-cash", ".00/@@@*", ".00/@@@r", "integer-width/##00",
    "precision-increment/0.25", "permille", "compact-long currency/USD", "()-", "currency/XYZ", "numbering-system/arab",
    "precision-unlimited", "unit/kilometer-per-hour unit-width-full-name", "unit/furlong",
    "currency/EUR unit-width-full-name", "decimal-always .", "group-thousands", "integer-width/*",
    "currency/CHF integer-width-trunc",
    "integer-width/+00000000000000000000000000000000000", "percent/w", "rounding-mode-half-odd"};

/* Each skeleton in each locale: as fd_format_by_skeleton and fd_read_by_skeleton. */
static void test_skeletons(void) {
    for (size_t t = 0; t < COUNT(tags); t++) {
        for (size_t s = 0; s < COUNT(skeletons); s++) {
            fd_made made = fd_formatter_by_skeleton(BYTES(tags[t]), BYTES(skeletons[s]));
            for (size_t n = 0; n < COUNT(numbers); n++) {
                static uint8_t kept[70000], once[70000];
                memset(kept, 0xA5, sizeof kept);
                memset(once, 0xA5, sizeof once);
                fd_result b =
                    fd_format_by_skeleton(BYTES(numbers[n]), BYTES(tags[t]), BYTES(skeletons[s]), once, 70000);
                if (made.status != FD_OK) {
                    CHECK(b.status == made.status && b.at == made.at && all(&made.formatter, sizeof made.formatter, 0));
                    continue;
                }
                fd_result a = fd_format(&made.formatter, BYTES(numbers[n]), kept, sizeof kept);
                CHECK(same(a, b) && memcmp(kept, once, sizeof kept) == 0);
                if (a.status != FD_OK) continue;
                size_t count = a.count;
                for (uint32_t lenient = 0; lenient < 2; lenient++) {
                    uint8_t own[64], other[64];
                    a = fd_read(&made.formatter, once, count, lenient, own, 64);
                    b = fd_read_by_skeleton(once, count, BYTES(tags[t]), BYTES(skeletons[s]), lenient, other, 64);
                    CHECK(same(a, b) && (a.status != FD_OK || memcmp(own, other, a.count) == 0));
                }
            }
        }
    }
}

/* The same by options; and each error of options. */
static void test_options(void) {
    for (unsigned seed = 0; seed < 3000; seed++) {
        fd_number_options o = FD_NUMBER_OPTIONS;
        srand(seed);
        static const char *const units[] = {
            "kilometer", "mile-per-hour", "gram-per-second", "percent", "percent-per-hour"};
        fd_units unit = fd_unit(BYTES(units[rand() % 5]));
        o.style = (uint8_t)(rand() % 5);
        o.unit = unit.unit, o.per_unit = unit.per_unit, o.unit_display = (uint8_t)(rand() % 3);
        memcpy(o.currency, rand() % 3 ? "EUR" : "jpy", 3);
        if (rand() % 4 == 0) memcpy(o.numbering_system, rand() % 4 ? "deva            " : "none            ", 16);
        o.currency_display = (uint8_t)(rand() % 5);
        o.decimal_separator = (uint8_t)(rand() % 2);
        o.currency_sign = (uint8_t)(rand() % 2);
        o.currency_usage = (uint8_t)(rand() % 2);
        o.notation = (uint8_t)(rand() % 5);
        o.sign_display = (uint8_t)(rand() % 5);
        o.grouping = (uint8_t)(rand() % 4);
        o.rounding_mode = (uint8_t)(rand() % 9);
        o.rounding_priority = (uint8_t)(rand() % 3);
        o.trailing_zeros = (uint8_t)(rand() % 2);
        o.scale = (int16_t)(rand() % 5 - 2);
        if (rand() % 2) o.minimum_integer_digits = (uint16_t)(rand() % 23);
        if (rand() % 3 == 0) o.minimum_fraction_digits = (uint16_t)(rand() % 5);
        if (rand() % 3 == 0) o.maximum_fraction_digits = (uint16_t)(rand() % 8);
        if (rand() % 4 == 0) o.maximum_significant_digits = (uint16_t)(rand() % 8);
        if (rand() % 8 == 0) o.rounding_increment = 25;
        if (rand() % 16 == 0) o.style = 5;
        if (rand() % 16 == 0) o.unit = (uint8_t)rand();
        const char *tag = tags[(size_t)rand() % COUNT(tags)], *number = numbers[(size_t)rand() % COUNT(numbers)];
        static uint8_t kept[70000], once[70000];
        fd_made made = fd_formatter_by_options(BYTES(tag), &o);
        fd_result b = fd_format_number(BYTES(number), BYTES(tag), &o, once, sizeof once);
        if (made.status != FD_OK) {
            CHECK(b.status == made.status && b.at == made.at && all(&made.formatter, sizeof made.formatter, 0));
            continue;
        }
        fd_result a = fd_format(&made.formatter, BYTES(number), kept, sizeof kept);
        CHECK(same(a, b) && (a.status != FD_OK || memcmp(kept, once, a.count) == 0));
        if (a.status != FD_OK) continue;
        uint8_t own[64], other[64];
        a = fd_read(&made.formatter, once, b.count, 1, own, 64);
        b = fd_read_number(once, b.count, BYTES(tag), &o, 1, other, 64);
        CHECK(same(a, b) && (a.status != FD_OK || memcmp(own, other, a.count) == 0));
    }
}

static fd_formatter by_skeleton(const char *tag, const char *skeleton) {
    fd_made made = fd_formatter_by_skeleton(BYTES(tag), BYTES(skeleton));
    CHECK(made.status == FD_OK && made.at == 0);
    return made.formatter;
}

/* Parts at each capacity of the buffer and of the array, in exact blocks. */
static void test_parts(void) {
    static const struct {
        const char *tag, *skeleton, *number, *text;
        uint32_t kinds[12];
        size_t ends[12], count;
        const char *end; /* of a range */
        uint32_t sources[12];
    } rows[] = {
        {"de", "currency/EUR", "-1234567.5", "-1.234.567,50\xc2\xa0" "€",
         {FD_PART_MINUS_SIGN, FD_PART_INTEGER, FD_PART_GROUP, FD_PART_INTEGER, FD_PART_GROUP, FD_PART_INTEGER,
          FD_PART_DECIMAL, FD_PART_FRACTION, FD_PART_LITERAL, FD_PART_CURRENCY},
         {1, 2, 3, 6, 7, 10, 11, 13, 15, 18}, 10, NULL, {0}},
        {"en", "scientific/+! .0", "1500", "1.5E+3",
         {FD_PART_INTEGER, FD_PART_DECIMAL, FD_PART_FRACTION, FD_PART_EXPONENT_SEPARATOR, FD_PART_EXPONENT_PLUS_SIGN,
          FD_PART_EXPONENT_INTEGER}, {1, 2, 3, 4, 5, 6}, 6, NULL, {0}},
        {"en", "scientific", "0.5", "5E-1",
         {FD_PART_INTEGER, FD_PART_EXPONENT_SEPARATOR, FD_PART_EXPONENT_MINUS_SIGN, FD_PART_EXPONENT_INTEGER},
         {1, 2, 3, 4}, 4, NULL, {0}},
        {"en", "K", "1234", "1.2K", {FD_PART_INTEGER, FD_PART_DECIMAL, FD_PART_FRACTION, FD_PART_COMPACT},
         {1, 2, 3, 4}, 4, NULL, {0}},
        {"en", "percent +!", "5", "+5%", {FD_PART_PLUS_SIGN, FD_PART_INTEGER, FD_PART_PERCENT_SIGN},
         {1, 2, 3}, 3, NULL, {0}},
        {"en", "unit/celsius", "0.1", "0.1°C", {FD_PART_INTEGER, FD_PART_DECIMAL, FD_PART_FRACTION, FD_PART_UNIT},
         {1, 2, 3, 6}, 4, NULL, {0}},
        {"hi-u-nu-deva", "", "12", "१२", {FD_PART_INTEGER}, {6}, 1, NULL, {0}},
        /* formatRangeToParts of node 20 */
        {"de", "currency/EUR", "1", "1,00–2,50\xc2\xa0" "€",
         {FD_PART_INTEGER, FD_PART_DECIMAL, FD_PART_FRACTION, FD_PART_LITERAL, FD_PART_INTEGER, FD_PART_DECIMAL,
          FD_PART_FRACTION, FD_PART_LITERAL, FD_PART_CURRENCY},
         {1, 2, 4, 7, 8, 9, 11, 13, 16}, 9, "2.5",
         {FD_START_RANGE, FD_START_RANGE, FD_START_RANGE, FD_SHARED, FD_END_RANGE, FD_END_RANGE, FD_END_RANGE}},
        {"en", "currency/USD", "1", "~$1.00",
         {FD_PART_APPROXIMATELY_SIGN, FD_PART_CURRENCY, FD_PART_INTEGER, FD_PART_DECIMAL, FD_PART_FRACTION},
         {1, 2, 3, 4, 6}, 5, "1.001", {FD_SHARED}},
        {"rm", "currency/INR ()", "-1", "(₹1,00) – ₹1,00",
         {FD_PART_LITERAL, FD_PART_CURRENCY, FD_PART_INTEGER, FD_PART_DECIMAL, FD_PART_FRACTION, FD_PART_LITERAL,
          FD_PART_CURRENCY, FD_PART_INTEGER, FD_PART_DECIMAL, FD_PART_FRACTION},
         {1, 4, 5, 6, 8, 14, 17, 18, 19, 21}, 10, "1",
         {FD_START_RANGE, FD_START_RANGE, FD_START_RANGE, FD_START_RANGE, FD_START_RANGE, FD_SHARED, FD_END_RANGE,
          FD_END_RANGE, FD_END_RANGE, FD_END_RANGE}},
        {"en", "unit/day unit-width-full-name", "5", "5–3 days",
         {FD_PART_INTEGER, FD_PART_LITERAL, FD_PART_INTEGER, FD_PART_LITERAL, FD_PART_UNIT},
         {1, 4, 5, 6, 10}, 5, "3", {FD_START_RANGE, FD_SHARED, FD_END_RANGE}}};
    for (size_t i = 0; i < COUNT(rows); i++) {
        fd_formatter f = by_skeleton(rows[i].tag, rows[i].skeleton);
        size_t n = strlen(rows[i].text), m = rows[i].count;
        for (size_t room = 0; room < n + 3; room++) {
            for (size_t places = 0; places < m + 3; places++) {
                uint8_t *buffer = malloc(room ? room : 1);
                fd_part *parts = malloc((places ? places : 1) * sizeof *parts);
                memset(buffer, 0xA5, room ? room : 1);
                memset(parts, 0xA5, (places ? places : 1) * sizeof *parts);
                const char *number = rows[i].number, *end = rows[i].end;
                fd_parted r = end ? fd_format_range_parts(&f, BYTES(number), BYTES(end), buffer, room, parts, places)
                                  : fd_format_parts(&f, BYTES(number), buffer, room, parts, places);
                CHECK(r.count == n && r.parts == m && r.at == 0);
                CHECK(r.status == (room < n ? FD_BUFFER_TOO_SMALL : places < m ? FD_PARTS_TOO_SMALL : FD_OK));
                size_t written = r.status == FD_OK ? n : 0, listed = r.status == FD_OK ? m : 0;
                CHECK(memcmp(buffer, rows[i].text, written) == 0 && all(buffer + written, room - written, 0xA5));
                CHECK(all(parts + listed, (places - listed) * sizeof *parts, 0xA5));
                for (size_t k = 0; k < listed; k++)
                    CHECK(parts[k].kind == rows[i].kinds[k] && parts[k].source == rows[i].sources[k] &&
                          parts[k].end == rows[i].ends[k] && parts[k].start == (k ? rows[i].ends[k - 1] : 0));
                free(buffer);
                free(parts);
            }
        }
    }
    fd_formatter f = by_skeleton("en", "scale/100");
    fd_part parts[4];
    uint8_t buffer[8];
    fd_parted r = fd_format_parts(&f, B("x"), buffer, 8, parts, 4);
    CHECK(r.status == FD_SYNTAX && r.count == 0 && r.parts == 0);
    r = fd_format_parts(&f, B("1e32767"), buffer, 8, parts, 4);
    CHECK(r.status == FD_OVERFLOW && r.at == 0 && r.count == 0 && r.parts == 0);
    f.options.reserved[27] = 1;
    r = fd_format_parts(&f, B("x"), buffer, 8, parts, 4);
    CHECK(r.status == FD_FORMATTER && r.count == 0 && r.parts == 0);
}

/* Ranges of numbers of 1 to 130 digits, whose texts are also longer than a block of the library: the text of the start
 * without its last bytes, the separator, and the text of the end. */
static void test_long_ranges(void) {
    static const struct {
        const char *tag, *skeleton, *cut, *separator;
    } rows[] = {{"en", "", "", "–"}, {"en", "currency/USD", "", " – "}, {"de", "currency/EUR", "\xc2\xa0" "€", "–"},
                {"en", "unit/kilometer", " km", "–"}, {"ru", "unit/day unit-width-full-name", " дней", "–"},
                {"en", "scientific .#", "", " – "}, {"de", "percent", "\xc2\xa0%", "–"}};
    for (size_t i = 0; i < COUNT(rows); i++) {
        fd_formatter f = by_skeleton(rows[i].tag, rows[i].skeleton);
        char start[131] = "", end[131] = "";
        for (size_t digits = 0; digits < 130; digits++) {
            uint8_t text[1024], expected[1024];
            start[digits] = '5';
            end[digits] = '7';
            fd_result first = fd_format(&f, BYTES(start), expected, sizeof expected);
            size_t n = first.count - strlen(rows[i].cut);
            CHECK(first.status == FD_OK && memcmp(expected + n, rows[i].cut, first.count - n) == 0);
            memcpy(expected + n, rows[i].separator, strlen(rows[i].separator));
            n += strlen(rows[i].separator);
            fd_result last = fd_format(&f, BYTES(end), expected + n, sizeof expected - n);
            fd_result range = fd_format_range(&f, BYTES(start), BYTES(end), text, sizeof text);
            CHECK(range.status == FD_OK && range.count == n + last.count && memcmp(text, expected, range.count) == 0);
        }
    }
}

/* Ranges at each capacity; their errors, of the start before those of the end; and the category of a range. */
static void test_ranges(void) {
    static const struct {
        const char *tag, *skeleton, *start, *end, *text;
    } rows[] = {
        /* formatRange of node 20 */
        {"de", "currency/EUR", "1", "2.5", "1,00–2,50\xc2\xa0" "€"}, {"en", "currency/USD", "1", "2", "$1.00 – $2.00"},
        {"en", "currency/USD", "1", "1.001", "~$1.00"}, {"en", "%x100", "1", "2", "100% – 200%"},
        {"en", "K", "1000", "2000000", "1K – 2M"}, {"ja", "", "-5", "3", "-5 ～ 3"}, {"en", "", "5", "3", "5–3"},
        {"de-AT-1996", "", "1", "2", "1–2"}, {"ar-EG-u-nu-latn", "", "1", "2", "1–2"},
        {"bs", "", "1", "2", "1 – 2"}, {"bs-Cyrl-BA", "", "1", "2", "1–2"},
        {"bs-Cyrl-BA-u-nu-latn-ca-gregory-x-abc", "", "1", "2", "1–2"}, {"bs_Cyrl_BA.UTF-8@latin", "", "1", "2", "1–2"},
        {"ru", "unit/day unit-width-full-name", "1", "5", "1–5 дней"},
        {"de", "currency/EUR unit-width-full-name", "1", "1", "≈1,00 Euro"}};
    static const struct {
        const char *start, *end;
        uint32_t status;
        size_t at;
    } wrong[] = {{"x", "y", FD_SYNTAX, 0}, {"1", "y", FD_SYNTAX, 1}, {"1e32768", "y", FD_LIMIT, 0},
                 {"1", "1e32768", FD_LIMIT, 1}, {"1e32767", "y", FD_SYNTAX, 1}, {"1e32767", "1e32767", FD_OVERFLOW, 0},
                 {"1e32767", "1", FD_OVERFLOW, 0}, {"1", "1e32767", FD_OVERFLOW, 1}, {"", "1", FD_SYNTAX, 0}};
    for (size_t i = 0; i < COUNT(rows); i++) {
        fd_formatter f = by_skeleton(rows[i].tag, rows[i].skeleton);
        size_t n = strlen(rows[i].text);
        for (size_t room = 0; room < n + 3; room++) {
            uint8_t *b = malloc(room ? room : 1);
            memset(b, 0xA5, room ? room : 1);
            fd_result r = fd_format_range(&f, BYTES(rows[i].start), BYTES(rows[i].end), b, room);
            CHECK(room < n ? r.status == FD_BUFFER_TOO_SMALL && r.count == n && all(b, room, 0xA5)
                           : gives(r, b, rows[i].text) && all(b + n, room - n, 0xA5));
            free(b);
        }
    }
    fd_formatter f = by_skeleton("en", "scale/100");
    for (size_t i = 0; i < COUNT(wrong); i++) {
        uint8_t b[64];
        fd_part parts[4];
        memset(b, 0xA5, 64);
        memset(parts, 0xA5, sizeof parts);
        fd_result r = fd_format_range(&f, BYTES(wrong[i].start), BYTES(wrong[i].end), b, 64);
        CHECK(r.status == wrong[i].status && r.at == wrong[i].at && r.count == 0 && all(b, 64, 0xA5));
        fd_parted p = fd_format_range_parts(&f, BYTES(wrong[i].start), BYTES(wrong[i].end), b, 64, parts, 4);
        CHECK(p.status == wrong[i].status && p.at == wrong[i].at && p.count == 0 && p.parts == 0);
        CHECK(all(b, 64, 0xA5) && all(parts, sizeof parts, 0xA5));
    }
    CHECK(fd_category_range(B("ru"), FD_ONE, FD_MANY).value == FD_MANY);
    CHECK(fd_category_range(B("ru"), FD_MANY, FD_ONE).value == FD_ONE);
    CHECK(fd_category_range(B("LV_lv.UTF-8"), FD_OTHER, FD_ZERO).value == FD_OTHER);
    CHECK(fd_category_range(B("en"), FD_FEW, FD_FEW).value == FD_OTHER);
    CHECK(fd_category_range(B("tlh"), FD_ONE, FD_OTHER).status == FD_UNKNOWN_LOCALE);
    CHECK(fd_category_range(B("\xff"), FD_ONE, FD_OTHER).status == FD_UNKNOWN_LOCALE);
    for (uint32_t c = 0; c < 300; c++) {
        fd_number first = fd_category_range(B("tlh"), c, FD_OTHER), second = fd_category_range(B("ru"), FD_ONE, c);
        CHECK(first.status == (c <= FD_OTHER ? FD_UNKNOWN_LOCALE : FD_UNKNOWN_OPTION) && first.value == 0);
        CHECK(second.status == (c <= FD_OTHER ? FD_OK : FD_UNKNOWN_OPTION) && second.at == 0);
    }
    CHECK(fd_category_range(B("ru"), UINT32_MAX, UINT32_MAX).status == FD_UNKNOWN_OPTION);
}

/* Of a tag with more than 16 bytes a formatter keeps the first subtags: the numbering system after them is not lost. */
static void test_long_tags(void) {
    static const char *const tags[] = {"de", "sr-Cyrl-ME", "bs_Cyrl_BA", "az-Latn-AZ", "es-419"};
    static const char *const middles[] = {"-u-nu-", "-u-ca-gregory-nu-", "-variant1-u-nu-"};
    static const char *const systems[] = {"arab", "latn", "mathsanb"};
    for (size_t i = 0; i < COUNT(tags) * COUNT(middles) * COUNT(systems); i++) {
        const char *tag = tags[i % 5], *system = systems[i / 15];
        fd_number_options o = FD_NUMBER_OPTIONS;
        char whole[64];
        snprintf(whole, sizeof whole, "%s%s%s", tag, middles[i / 5 % 3], system);
        fd_made by_tag = fd_formatter_by_options(BYTES(whole), &o);
        memset(o.numbering_system, ' ', sizeof o.numbering_system);
        memcpy(o.numbering_system, system, strlen(system));
        fd_made by_option = fd_formatter_by_options(BYTES(tag), &o);
        uint8_t a[64], b[64];
        fd_result r = fd_format_range(&by_tag.formatter, B("-1.5"), B("1234567"), a, sizeof a);
        fd_result s = fd_format_range(&by_option.formatter, B("-1.5"), B("1234567"), b, sizeof b);
        CHECK(r.status == FD_OK && s.status == FD_OK && r.count == s.count && memcmp(a, b, r.count) == 0);
    }
}

/* A text of 43,690 bytes and 21,845 parts. */
static void test_many_parts(void) {
    static uint8_t buffer[70000];
    static fd_part parts[30000];
    fd_formatter f = by_skeleton("en", ",!");
    fd_parted r = fd_format_parts(&f, B("1e32767"), buffer, 70000, parts, 0);
    CHECK(r.status == FD_PARTS_TOO_SMALL && r.count == 43690 && r.parts == 21845);
    r = fd_format_parts(&f, B("1e32767"), buffer, 70000, parts, 21845);
    CHECK(r.status == FD_OK && r.parts == 21845 && parts[21844].end == 43690 && parts[0].end == 2);
    for (size_t i = 1; i < r.parts; i++)
        CHECK(parts[i].start == parts[i - 1].end && parts[i].kind == (i % 2 ? FD_PART_GROUP : FD_PART_INTEGER));
}

static void test_columns(void) {
    uint8_t b[64];
    fd_formatter f = by_skeleton("de", "currency/EUR");
    fd_column c = fd_format_column(&f, B("1234.5\nx\n-1"), 1, b, 64);
    CHECK(c.status == FD_OK && c.lines == 3 && c.failed == 1 && c.read == 11 && c.written == 26);
    CHECK(memcmp(b, "1.234,50\xc2\xa0" "€\n\n-1,00\xc2\xa0" "€\n", 26) == 0);
    c = fd_format_column(&f, B("1234.5\nx\n-1"), 0, b, 64);
    CHECK(c.status == FD_SYNTAX && c.lines == 1 && c.read == 7 && c.written == 14 && c.failed == 0);
    c = fd_format_column(&f, B("1234.5\n1\n"), 0, b, 20);
    CHECK(c.status == FD_BUFFER_TOO_SMALL && c.lines == 1 && c.read == 7 && c.written == 14);
    f.rows.locale = 0;
    memset(b, 0xA5, 64);
    c = fd_format_column(&f, B("1\n"), 1, b, 64);
    CHECK(c.status == FD_FORMATTER && c.lines == 0 && c.read == 0 && c.written == 0 && all(b, 64, 0xA5));
}

static void test_resolved(void) {
    fd_number_options o = FD_NUMBER_OPTIONS;
    o.style = FD_CURRENCY, o.currency_usage = FD_CASH;
    memcpy(o.currency, "CHF", 3);
    fd_made made = fd_formatter_by_options(B("hi-u-nu-deva"), &o);
    fd_resolution r = fd_resolved(&made.formatter);
    CHECK(r.status == FD_OK && r.options.style == FD_CURRENCY && memcmp(r.options.currency, "CHF", 3) == 0);
    CHECK(r.options.precision == FD_BY_INCREMENT && r.options.maximum_fraction_digits == 2);
    CHECK(r.options.minimum_fraction_digits == 2 && r.options.rounding_increment == 5);
    CHECK(memcmp(r.options.numbering_system, "deva            ", 16) == 0 && r.options.has_numbering_system == 1);
    CHECK(r.options.minimum_integer_digits == 1 && r.options.maximum_integer_digits == 32768);
    CHECK(r.options.rounding_mode == FD_HALF_EXPAND && r.options.grouping == FD_GROUP_AUTO);
    fd_formatter f = by_skeleton("ar-EG", "scientific/*eee/+! .00##/@@@r");
    r = fd_resolved(&f);
    CHECK(r.options.notation == FD_SCIENTIFIC && r.options.exponent_digits == 3);
    CHECK(r.options.exponent_sign == FD_EXPONENT_ALWAYS && memcmp(r.options.numbering_system, "arab  ", 6) == 0);
    f = by_skeleton("en", ".00##/@@@*");
    r = fd_resolved(&f);
    CHECK(r.options.precision == FD_BY_MORE && r.options.zeros == FD_ZEROS_OF_BOTH);
    CHECK(r.options.minimum_significant_digits == 1 && r.options.maximum_significant_digits == 3);
    CHECK(r.options.minimum_fraction_digits == 2 && r.options.maximum_fraction_digits == 4);
    f = by_skeleton("en", "K");
    r = fd_resolved(&f);
    CHECK(r.options.notation == FD_COMPACT_SHORT && r.options.grouping == FD_GROUP_MIN2);
    f.options.style = 5;
    r = fd_resolved(&f);
    CHECK(r.status == FD_FORMATTER && all(&r.options, sizeof r.options, 0));
    f = by_skeleton("en", "unit/gram-per-second unit-width-narrow decimal-always");
    r = fd_resolved(&f);
    CHECK(r.options.style == FD_UNIT && r.options.unit_display == FD_UNIT_NARROW);
    CHECK(r.options.unit == fd_unit(B("gram")).unit && r.options.per_unit == fd_unit(B("second")).unit);
    CHECK(r.options.decimal_separator == FD_SEPARATOR_ALWAYS && r.options.currency[0] == 0);
    CHECK(r.options.group_sizes == FD_GROUPS_OF_LOCALE);
    f = by_skeleton("hi", "group-thousands integer-width/##");
    r = fd_resolved(&f);
    CHECK(r.options.grouping == FD_GROUP_ALWAYS && r.options.group_sizes == FD_GROUPS_OF_THREE);
    CHECK(r.options.minimum_integer_digits == 0 && r.options.maximum_integer_digits == 2);
    f.options.group_sizes = 2;
    CHECK(fd_resolved(&f).status == FD_FORMATTER);
    f = by_skeleton("en", "unit/percent-per-hour");
    r = fd_resolved(&f);
    CHECK(r.options.per_display == FD_PER_ALWAYS && r.options.unit_display == FD_UNIT_SHORT);
    f.options.per_display = 2;
    CHECK(fd_resolved(&f).status == FD_FORMATTER);
}

static void test_status_texts(void) {
    static const struct {
        uint32_t status;
        size_t at, calls;
        const char *line;
    } rows[] = {
        {FD_OK, 7, 0, ""}, {FD_SYNTAX, 0, 0, "start: syntax"}, {FD_LIMIT, 0, 0, "start: limit"},
        {FD_MEMORY, 0, 0, "memory"}, {FD_OPERAND_SYNTAX, 2, 5, "call 2: syntax"},
        {FD_OPERAND_LIMIT, 10, 11, "call 10: limit"}, {FD_OVERLAP, 1, 2, "call 1: overlap"},
        {FD_OVERFLOW, 1, 2, "call 1: overflow"}, {FD_OVERFLOW, 2, 2, "format: overflow"},
        {FD_OVERFLOW, 0, 0, "format: overflow"}, {FD_OVERFLOW, 1, 0, "format: overflow"},
        {FD_SYNTAX, 1, 0, "end: syntax"}, {FD_LIMIT, 1, 0, "end: limit"}, {FD_UNKNOWN_CALL, 3, 4, "no such call: 3"},
        {FD_UNKNOWN_LOCALE, 0, 0, "unknown locale"},
        {FD_RULES_SYNTAX, SIZE_MAX, 0, "rules: syntax at 18446744073709551615"},
        {FD_SKELETON_SYNTAX, 14, 0, "skeleton: syntax at 14"},
        {FD_SKELETON_UNSUPPORTED, 4, 0, "skeleton: unsupported at 4"},
        {FD_UNREADABLE_FORMAT, 0, 0, "skeleton: no reader"}, {FD_FORMATTER, 0, 0, "no formatter"},
        {FD_UNKNOWN_UNIT, 0, 0, "unknown unit"}};
    for (size_t i = 0; i < COUNT(rows); i++) {
        size_t n = strlen(rows[i].line);
        for (size_t room = 0; room < n + 3; room++) {
            uint8_t b[64];
            memset(b, 0xA5, 64);
            fd_result r = fd_status_text(rows[i].status, rows[i].at, rows[i].calls, b, room);
            CHECK(room < n ? r.status == FD_BUFFER_TOO_SMALL && r.count == n && all(b, 64, 0xA5)
                           : gives(r, b, rows[i].line) && all(b + n, 64 - n, 0xA5));
        }
    }
    uint8_t b[80];
    for (uint32_t status = 0; status < 300; status++)
        for (size_t at = 0; at < 2; at++)
            CHECK(fd_status_text(status, at ? SIZE_MAX : 0, 0, b, 80).status ==
                  (status < 25 ? FD_OK : FD_UNKNOWN_OPTION));
    CHECK(fd_status_text(UINT32_MAX, 0, 0, b, 80).status == FD_UNKNOWN_OPTION);
}

/* Makes all calls by a formatter of any bytes: its status is FD_FORMATTER for all, or for none. */
static int is_formatter(const fd_formatter *f) {
    static uint8_t b[1 << 18];
    fd_part parts[64];
    fd_result r = fd_format(f, B("-1234567.891"), b, sizeof b), read = fd_read(f, B("1"), 1, b, 64);
    fd_parted p = fd_format_parts(f, B("-1234567.891"), b, sizeof b, parts, 64);
    fd_column c = fd_format_column(f, B("1\n2"), 1, b, sizeof b);
    fd_resolution o = fd_resolved(f);
    int is = r.status != FD_FORMATTER;
    fd_result range = fd_format_range(f, B("-1234567.891"), B("3"), b, sizeof b);
    fd_parted split = fd_format_range_parts(f, B("-1234567.891"), B("3"), b, sizeof b, parts, 64);
    CHECK((is || range.status == FD_FORMATTER) && split.count == range.count);
    CHECK(split.status == range.status || (split.status == FD_PARTS_TOO_SMALL && range.status == FD_OK));
    CHECK(is == (read.status != FD_FORMATTER) && is == (p.status != FD_FORMATTER) && is == (o.status == FD_OK));
    CHECK(is == (c.status != FD_FORMATTER) && (!is || r.count == p.count));
    return is;
}

static void test_any_bytes(void) {
    fd_formatter f;
    uint8_t b[1];
    memset(&f, 0, sizeof f);
    CHECK(!is_formatter(&f));
    unsigned state = 1;
#define NEXT (state = state * 1103515245u + 12345u, state >> 16 & 255)
    for (int i = 0; i < 1000; i++) {
        for (size_t k = 0; k < sizeof f; k++) ((uint8_t *)&f)[k] = (uint8_t)NEXT;
        is_formatter(&f);
    }
    size_t others = 0;
    for (size_t s = 0; s + 2 < COUNT(skeletons); s++) {
        for (size_t k = 0; k < sizeof f; k++) {
            static const uint8_t values[] = {0, 1, 2, 5, 127, 128, 255};
            for (size_t v = 0; v < sizeof values; v++) {
                f = by_skeleton("de", skeletons[s]);
                CHECK(v > 0 || k > 0 || is_formatter(&f));
                ((uint8_t *)&f)[k] = values[v];
                others += (size_t)is_formatter(&f);
            }
        }
    }
    CHECK(others > 0);
    /* A number of no unit, and a kind of no rows. */
    f = by_skeleton("de", "unit/furlong");
    f.options.per_unit = 231;
    CHECK(!is_formatter(&f));
    f.options.per_unit = 0, f.options.unit = 0;
    CHECK(!is_formatter(&f));
    f.options.unit = 230;
    CHECK(is_formatter(&f));
    f.rows.outer.kind = 4;
    CHECK(!is_formatter(&f));
    /* Ranges alone need the tag. */
    f = by_skeleton("de", "");
    memcpy(f.tag, "tlh             ", sizeof f.tag);
    CHECK(is_formatter(&f) && fd_format_range(&f, B("1"), B("2"), b, 0).status == FD_FORMATTER);
    memset(f.tag, 0xFF, sizeof f.tag);
    CHECK(is_formatter(&f) && fd_format_range(&f, B("1"), B("2"), b, 0).status == FD_FORMATTER);
    for (size_t k = 0; k < sizeof f.options.reserved; k++) {
        f = by_skeleton("de", "");
        f.options.reserved[k] = 1;
        CHECK(!is_formatter(&f));
    }
    for (size_t k = 0; k < sizeof f.rows.reserved; k++) {
        f = by_skeleton("de", "");
        f.rows.reserved[k] = 128;
        CHECK(!is_formatter(&f));
    }
}

int main(void) {
    CHECK(sizeof(fd_formatter) <= 256);
    test_skeletons();
    test_options();
    test_parts();
    test_ranges();
    test_long_ranges();
    test_long_tags();
    test_many_parts();
    test_columns();
    test_resolved();
    test_status_texts();
    test_any_bytes();
    return report();
}
