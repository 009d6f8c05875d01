/* The options of numbers by their names and words in ECMA-402, for the SQL functions of examples/sqlite and
 * examples/postgresql. */
#include <stddef.h>
#include <string.h>
#include <fixed_decimal.h>

typedef struct { const uint8_t *start; size_t count; } bytes;
#define BYTES(b) (b).start, (b).count

static int is(bytes text, const char *word, size_t count) {
    return text.count == count && memcmp(text.start, word, count) == 0;
}

static int has(bytes text, int byte) {
    return memchr(text.start, byte, text.count) != NULL;
}

/* Options that are set one by one; is_long: compact notation is that of FD_COMPACT_LONG. */
typedef struct { fd_number_options number; uint8_t is_long; } named;
#define OPTION(field) offsetof(named, number.field)

/* The options of Intl.NumberFormat with their words, each with a space after it, or for a number of digits none. */
static const struct { const char *name; size_t offset; const char *words; } options[] = {
    {"style", OPTION(style), "decimal percent permille currency unit "},
    {"currencyDisplay", OPTION(currency_display), "symbol narrowSymbol code hidden name "},
    {"currencySign", OPTION(currency_sign), "standard accounting "},
    {"currencyUsage", OPTION(currency_usage), "standard cash "},
    {"unitDisplay", OPTION(unit_display), "short narrow long "},
    {"notation", OPTION(notation), "standard scientific engineering compact "},
    {"compactDisplay", offsetof(named, is_long), "short long "},
    {"signDisplay", OPTION(sign_display), "auto never always exceptZero negative "},
    {"useGrouping", OPTION(grouping), "auto false always min2 "},
    {"decimalSeparator", OPTION(decimal_separator), "auto always "},
    {"roundingMode", OPTION(rounding_mode),
     "ceil floor expand trunc halfCeil halfFloor halfExpand halfTrunc halfEven "},
    {"roundingPriority", OPTION(rounding_priority), "auto morePrecision lessPrecision "},
    {"trailingZeroDisplay", OPTION(trailing_zeros), "auto stripIfInteger "},
    {"minimumIntegerDigits", OPTION(minimum_integer_digits), NULL},
    {"minimumFractionDigits", OPTION(minimum_fraction_digits), NULL},
    {"maximumFractionDigits", OPTION(maximum_fraction_digits), NULL},
    {"minimumSignificantDigits", OPTION(minimum_significant_digits), NULL},
    {"maximumSignificantDigits", OPTION(maximum_significant_digits), NULL},
    {"roundingIncrement", OPTION(rounding_increment), NULL}};

/* Sets an option to the index of its word; 0: it is none of the words. */
static int set_word(uint8_t *option, const char *words, bytes text) {
    for (uint8_t i = 0; *words; i++, words += strcspn(words, " ") + 1)
        if (is(text, words, strcspn(words, " "))) return *option = i, 1;
    return 0;
}

/* Sets an option to a number, of digits and nothing else; 0: it is none, or too great. */
static int set_number(uint8_t *option, bytes text) {
    uint32_t number = 0;
    for (size_t i = 0; i < text.count; i++) {
        if (text.start[i] < '0' || text.start[i] > '9') return 0;
        number = number * 10 + (text.start[i] - '0');
        if (number >= FD_DEFAULT) return 0;
    }
    return text.count && memcpy(option, &(uint16_t){(uint16_t)number}, sizeof(uint16_t));
}

/* Sets the unit with a name; 0: there is none. */
static int set_unit(fd_number_options *number, bytes name) {
    fd_units units = fd_unit(BYTES(name));
    number->unit = units.unit, number->per_unit = units.per_unit;
    return units.status == FD_OK;
}

/* Sets an option by its name; 0: there is none, or no such value. */
static int set_option(named *o, bytes name, bytes value) {
    if (is(name, "currency", 8)) return value.count == 3 && memcpy(o->number.currency, value.start, 3);
    if (is(name, "unit", 4)) return set_unit(&o->number, value);
    if (is(name, "numberingSystem", 15))
        return value.count <= 16 && !has(value, ' ') && !has(value, 0)
               && memcpy(memset(o->number.numbering_system, ' ', 16), value.start, value.count);
    for (size_t i = 0; i < sizeof options / sizeof *options; i++) {
        uint8_t *field = (uint8_t *)o + options[i].offset;
        if (!is(name, options[i].name, strlen(options[i].name))) continue;
        return options[i].words ? set_word(field, options[i].words, value) : set_number(field, value);
    }
    return 0;
}

/* The options, when all are set: percent multiplies by 100, as in Intl.NumberFormat. */
static fd_number_options number_of(named o) {
    if (o.number.style == FD_PERCENT) o.number.scale = 2;
    if (o.number.notation == FD_COMPACT_SHORT) o.number.notation += o.is_long;
    return o.number;
}
