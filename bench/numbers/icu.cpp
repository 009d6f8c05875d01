// Times ICU for bench/numbers.sh: a row `format`, `range`, `read`, `make` or `first`, locale, skeleton, number,
// nanoseconds of a call.
//
// `format` is LocalizedNumberFormatter::formatDecimal of a text, and its text in UTF-8. `range` is
// LocalizedNumberRangeFormatter::formatFormattableRange of two texts, and its text in UTF-8. `read` is
// unum_parseDecimal of the text in UTF-16. All of these are made before the clock starts. `make` is
// UnlocalizedNumberFormatter::locale, and `first` also formats the number.
#include <unicode/fmtable.h>
#include <unicode/numberformatter.h>
#include <unicode/numberrangeformatter.h>
#include <unicode/unistr.h>
#include <unicode/unum.h>

#include "../least.h"

using icu::number::LocalizedNumberFormatter;
using icu::number::LocalizedNumberRangeFormatter;
using icu::number::NumberFormatter;
using icu::number::NumberRangeFormatter;
using icu::number::UnlocalizedNumberFormatter;

static const char* LOCALES[] = {"en", "de", "hi", "ar-EG", "ja"};
static const char UNIT[] = "unit/kilometer-per-hour";
static const char NAME[] = "currency/EUR unit-width-full-name";
static const char* SKELETONS[] = {
    "", ".00", "currency/EUR .00", "percent", "K", "KK", "E0", UNIT, "unit/day unit-width-full-name", NAME};
static const struct { const char *locale, *skeleton; } MADE[] = {
    {"de", ""}, {"en", "currency/EUR .00"}, {"en", "K"}, {"de", "KK"}, {"de", UNIT}, {"en", NAME}};
static const struct { const char* skeleton; UNumberFormatStyle style; } READ[] = {
    {"currency/EUR .00", UNUM_CURRENCY},
    {"%x100 .00", UNUM_PERCENT},
};
static const char* RANGES[] = {"", "currency/EUR .00", UNIT, NAME};
static const char RANGE_END[] = "2345.6";
static const char* NUMBERS[] = {"1234.5", "-1234567.891", "0.25"};

static LocalizedNumberFormatter formatter_of(const char* locale, const char* skeleton, UErrorCode& status) {
    return NumberFormatter::forSkeleton(icu::UnicodeString::fromUTF8(skeleton), status)
        .locale(icu::Locale::forLanguageTag(locale, status));
}

static size_t length_of(const LocalizedNumberFormatter& formatter, const char* number, UErrorCode& status) {
    std::string bytes;
    formatter.formatDecimal(number, status).toString(status).toUTF8String(bytes);
    return bytes.size();
}

static void time_making(int batches, const char* locale, const char* skeleton, UErrorCode& status) {
    UnlocalizedNumberFormatter settings =
        NumberFormatter::forSkeleton(icu::UnicodeString::fromUTF8(skeleton), status);
    icu::Locale tag = icu::Locale::forLanguageTag(locale, status);
    double time = least(batches, [&] { total += settings.locale(tag).copyErrorTo(status); });
    std::printf("make\t%s\t%s\t\t%.0f\n", locale, skeleton, time);
    time = least(batches, [&] { total += length_of(settings.locale(tag), NUMBERS[0], status); });
    std::printf("first\t%s\t%s\t%s\t%.0f\n", locale, skeleton, NUMBERS[0], time);
}

static void time_formats(int batches, const char* locale, const char* skeleton, UErrorCode& status) {
    LocalizedNumberFormatter formatter = formatter_of(locale, skeleton, status);
    for (const char* number : NUMBERS) {
        double time = least(batches, [&] { total += length_of(formatter, number, status); });
        std::printf("format\t%s\t%s\t%s\t%.0f\n", locale, skeleton, number, time);
    }
}

static void time_range(int batches, const char* locale, const char* skeleton, UErrorCode& status) {
    UnlocalizedNumberFormatter settings =
        NumberFormatter::forSkeleton(icu::UnicodeString::fromUTF8(skeleton), status);
    LocalizedNumberRangeFormatter formatter =
        NumberRangeFormatter::withLocale(icu::Locale::forLanguageTag(locale, status)).numberFormatterBoth(settings);
    double time = least(batches, [&] {
        icu::Formattable start(icu::StringPiece(NUMBERS[0]), status), end(icu::StringPiece(RANGE_END), status);
        std::string bytes;
        formatter.formatFormattableRange(start, end, status).toString(status).toUTF8String(bytes);
        total += bytes.size();
    });
    std::printf("range\t%s\t%s\t%s..%s\t%.0f\n", locale, skeleton, NUMBERS[0], RANGE_END, time);
}

static void time_reads(
    int batches, const char* locale, const char* skeleton, UNumberFormatStyle style, UErrorCode& status
) {
    LocalizedNumberFormatter formatter = formatter_of(locale, skeleton, status);
    UNumberFormat* parser = unum_open(style, nullptr, 0, locale, nullptr, &status);
    if (style == UNUM_CURRENCY) unum_setTextAttribute(parser, UNUM_CURRENCY_CODE, u"EUR", 3, &status);
    for (const char* number : NUMBERS) {
        icu::UnicodeString text = formatter.formatDecimal(number, status).toString(status);
        double time = least(batches, [&] {
            char digits[64];
            total += unum_parseDecimal(parser, text.getBuffer(), text.length(), nullptr, digits, 64, &status);
        });
        std::printf("read\t%s\t%s\t%s\t%.0f\n", locale, skeleton, number, time);
    }
    unum_close(parser);
}

int main(int, char** words) {
    int batches = std::atoi(words[1]);
    UErrorCode status = U_ZERO_ERROR;
    for (auto row : MADE) time_making(batches, row.locale, row.skeleton, status);
    for (const char* locale : LOCALES) {
        for (const char* skeleton : SKELETONS) time_formats(batches, locale, skeleton, status);
        for (const char* skeleton : RANGES) time_range(batches, locale, skeleton, status);
        for (auto row : READ) time_reads(batches, locale, row.skeleton, row.style, status);
    }
    if (U_FAILURE(status)) {
        std::fprintf(stderr, "%s\n", u_errorName(status));
        return 1;
    }
    std::fprintf(stderr, "%zu bytes\n", total);
}
