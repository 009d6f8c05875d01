/* ICU's number formatting: a text is parsed, shifted, rounded and printed in one call. */

#include <unicode/unumberformatter.h>
#include <unicode/ustring.h>

/* Makes a formatter that shifts by -2, and rounds half-even to a number of decimals. */
UNumberFormatter *icu_open(int decimals) {
    UChar skeleton[256] = u"scale/0.01 rounding-mode-half-even group-off .";
    int length = u_strlen(skeleton);
    for (int i = 0; i < decimals; i++)
        skeleton[length++] = '0';
    UErrorCode status = U_ZERO_ERROR;
    UNumberFormatter *formatter = unumf_openForSkeletonAndLocale(skeleton, length, "en", &status);
    return U_SUCCESS(status) ? formatter : 0;
}

UFormattedNumber *icu_open_result(void) {
    UErrorCode status = U_ZERO_ERROR;
    return unumf_openResult(&status);
}

/* Returns the length of the text, or -1 if there is none. */
int icu_format(const UNumberFormatter *formatter, UFormattedNumber *result, const char *text, int length,
               UChar *printed, int room) {
    UErrorCode status = U_ZERO_ERROR;
    unumf_formatDecimal(formatter, text, length, result, &status);
    int printed_length = unumf_resultToString(result, printed, room, &status);
    return U_SUCCESS(status) ? printed_length : -1;
}
