// ICU's plural rules. A locale's rules, a formatted number and a keyword are made before the clock starts.

#include <cstdint>
#include <unicode/numberformatter.h>
#include <unicode/plurrule.h>

using icu::PluralRules;
using icu::UnicodeString;
using icu::number::FormattedNumber;
using icu::number::NumberFormatter;

// Returns the length of a keyword, and copies the keyword if there is room.
static int answer(const UnicodeString &keyword, char *room) {
    if (room)
        keyword.extract(0, keyword.length(), room, 8, US_INV);
    return keyword.length();
}

extern "C" {

const PluralRules *icu_rules_open(const char *locale) {
    UErrorCode status = U_ZERO_ERROR;
    return PluralRules::forLocale(icu::Locale(locale), status);
}

// Makes the number as it is written, with no other zeros.
const FormattedNumber *icu_number_open(const char *text, int length) {
    UErrorCode status = U_ZERO_ERROR;
    auto formatter = NumberFormatter::withLocale("en").precision(icu::number::Precision::unlimited());
    return new FormattedNumber(formatter.formatDecimal(icu::StringPiece(text, length), status));
}

int icu_select_double(const PluralRules *rules, double number, char *room) {
    return answer(rules->select(number), room);
}

int icu_select_int32(const PluralRules *rules, std::int32_t number, char *room) {
    return answer(rules->select(number), room);
}

int icu_select_formatted(const PluralRules *rules, const FormattedNumber *number, char *room) {
    UErrorCode status = U_ZERO_ERROR;
    return answer(rules->select(*number, status), room);
}

}
