// Times ICU for bench/format.sh: a row `format` or `read`, locale, number, nanoseconds for each.
//
// `format` is LocalizedNumberFormatter::formatDecimal of a text, and its text in UTF-8; `read` is unum_parseDecimal of
// the text in UTF-16. Both are made before the clock starts.
#include <unicode/numberformatter.h>
#include <unicode/unistr.h>
#include <unicode/unum.h>

#include <cstring>
#include "../least.h"

using icu::number::LocalizedNumberFormatter;
using icu::number::NumberFormatter;
using icu::number::Precision;

static const char* LOCALES[] = {"en", "de", "hi", "ar-EG"};
static const char* NUMBERS[] = {"1234.5", "-1234567.891", "12345678901234567890.5"};

int main(int, char** words) {
    int batches = std::atoi(words[1]);
    for (const char* locale : LOCALES) {
        UErrorCode status = U_ZERO_ERROR;
        UNumberFormat* parser = unum_open(UNUM_DECIMAL, nullptr, 0, locale, nullptr, &status);
        for (const char* number : NUMBERS) {
            const char* point = std::strchr(number, '.');
            LocalizedNumberFormatter formatter =
                NumberFormatter::withLocale(icu::Locale::forLanguageTag(locale, status))
                    .precision(Precision::fixedFraction(int(std::strlen(point + 1))));
            icu::UnicodeString text = formatter.formatDecimal(number, status).toString(status);
            double formatted = least(batches, [&] {
                std::string bytes;
                formatter.formatDecimal(number, status).toString(status).toUTF8String(bytes);
                total += bytes.size();
            });
            double read = least(batches, [&] {
                char digits[64];
                total += unum_parseDecimal(parser, text.getBuffer(), text.length(), nullptr, digits, 64, &status);
            });
            std::printf("format\t%s\t%s\t%.0f\nread\t%s\t%s\t%.0f\n", locale, number, formatted, locale, number, read);
        }
        unum_close(parser);
        if (U_FAILURE(status)) {
            std::fprintf(stderr, "%s\n", u_errorName(status));
            return 1;
        }
    }
    std::fprintf(stderr, "%zu bytes\n", total);
}
