/* Exact decimals for display, in C99 and C++.
 *
 * A value is its text: 2.50 is not 2.5, and the text of a value reads back as that value. So a function takes the text
 * of a value and writes the text of another one into a buffer of the caller. Nothing is kept between calls: there is
 * nothing to free and no global state, and each function may be called in any thread at any time.
 *
 * The number of a locale, of plural rules or of a unit names rows of constant tables, and an fd_formatter has such
 * numbers. They are the same in all threads, and valid in this process only, since another version of the library may
 * have other rows: do not store them.
 *
 * Each function is proved to return; none panics, aborts, waits, prints or calls back. docs/C.md says what is proved.
 *
 * What the caller upholds:
 * - Each pointer is not null and points to as many bytes (or calls) as the number after it says, also if that is 0
 *   (FD_NONE will do), and the number is below 2^63.
 * - The buffer overlaps no other argument, and no other thread reads or writes it during the call; nor writes another.
 * - malloc, realloc and free are those of one allocator, and the call is not made in a signal handler, nor in the
 *   forked child of a process with threads. Values of up to 16 digits and lists of up to eight calls need no memory;
 *   fd_category allocates for its rules.
 *
 * Texts need not be UTF-8 and do not end in a zero byte: neither those that are passed nor those that are written.
 *
 *   decimal     = [ "-" | "+" ], unsigned ;
 *   unsigned    = digits | [ digits ], ".", digits | significand, exponent ;
 *   significand = digits | [ digits ], ".", [ digits ] ;
 *   exponent    = ( "e" | "E" ), [ "-" | "+" ], digits ;
 */
#ifndef FIXED_DECIMAL_H
#define FIXED_DECIMAL_H

#include <stddef.h>
#include <stdint.h>

#ifdef __cplusplus
extern "C" {
#endif

/* The version of this interface: it grows when a number, a struct or a meaning changes. */
#define FD_VERSION 8

/* The version of the library, to be compared with FD_VERSION. */
uint32_t fd_version(void);

/* Why a function has no answer. `at` of the answer says where. */
typedef enum fd_status {
    FD_OK = 0,
    FD_SYNTAX = 1,           /* a text is not in the grammar; at: 0 the first text, 1 the second */
    FD_LIMIT = 2,            /* a text has more than 32768 digits before or after the point; at: as above */
    FD_MEMORY = 3,           /* out of memory */
    FD_OPERAND_SYNTAX = 4,   /* the operand of call `at` is not in the grammar */
    FD_OPERAND_LIMIT = 5,    /* the operand of call `at` has too many digits */
    FD_OVERLAP = 6,          /* the numbers that call `at` concatenates overlap */
    FD_OVERFLOW = 7,         /* the result of call `at`, a shift or a rounding, is beyond the limits; or, after all
                                calls, where `at` is their number, the number that is shown; of a range, `at` is 0
                                for its first number and 1 for its second one */
    FD_BUFFER_TOO_SMALL = 8, /* the text does not fit the rest of the buffer */
    FD_UNKNOWN_CALL = 9,     /* call `at` has an unknown kind, option or increment, or an operand outside the texts */
    FD_UNKNOWN_LOCALE = 10,  /* no locale of the tag is known, or its numbering system is not; or none has the number */
    FD_UNKNOWN_OPTION = 11,  /* an unknown grouping, reading, type of rules or option of a number */
    FD_NOT_WHOLE = 12,       /* a fraction digit is not 0 */
    FD_OUT_OF_RANGE = 13,    /* the integer type does not hold the number */
    FD_RULES_SYNTAX = 14,    /* the text cannot go on as rules at byte `at` */
    FD_RULES_LIMIT = 15,     /* the number at byte `at` of the rules is too great */
    FD_SKELETON_SYNTAX = 16, /* the text is no skeleton, or not UTF-8, from byte `at` on; or it is outside the texts */
    FD_SKELETON_UNSUPPORTED = 17,    /* the library has no such option as the stem at byte `at` of the skeleton */
    FD_UNKNOWN_NUMBERING_SYSTEM = 18, /* no numbering system is known by the name in the options */
    FD_UNREADABLE_FORMAT = 19, /* the numbers of the options are not read: two have the same text, a text of the unit
                                  has no number, no integer digit has to be written, or a decimal separator is always
                                  written. A text of the unit without a number is read in standard notation if no sign
                                  is ever written and no other number has its plural category. With an exponent or in
                                  compact notation also: numbers are rounded to an increment, or integer digits are cut
                                  off. With an exponent also: its minus sign is not written. In compact notation also:
                                  a word without a number is not that of 1 alone, as "mille" is */
    FD_DIGIT_OPTIONS = 20,     /* the numbers of digits are those of no format, by the fd_digit_reason at */
    FD_NO_SKELETON = 21,       /* no skeleton has these options */
    FD_FORMATTER = 22,         /* the bytes are no fd_formatter */
    FD_PARTS_TOO_SMALL = 23,   /* the text fits the buffer, and its parts do not fit the array */
    FD_UNKNOWN_UNIT = 24       /* Intl.NumberFormat has no unit with this name */
} fd_status;

/* The result of a function that writes a text: status is an fd_status. */
typedef struct fd_result {
    uint32_t status;
    size_t at;
    size_t count; /* FD_OK: bytes written; FD_BUFFER_TOO_SMALL: bytes needed; else 0 */
} fd_result;

/* The result of a function that returns a number; it is 0 if status is not FD_OK. */
typedef struct fd_number {
    uint32_t status;
    size_t at;
    int64_t value;
} fd_number;

/* The result of a function that returns an unsigned number; it is 0 if status is not FD_OK. */
typedef struct fd_unsigned {
    uint32_t status;
    size_t at;
    uint64_t value;
} fd_unsigned;

/* The result of a function that finds a unit; its numbers are 0 if status is not FD_OK. */
typedef struct fd_units {
    uint32_t status;  /* FD_OK or FD_UNKNOWN_UNIT */
    uint8_t unit;     /* at least 1 */
    uint8_t per_unit; /* the unit after "-per-"; 0: none */
} fd_units;

/* The number of a decimal in units of 10^-18: high * 2^64 + low. */
typedef struct fd_key {
    int64_t high;
    uint64_t low;
} fd_key;

/* The result of a function that returns a key; its halves are 0 if status is not FD_OK. */
typedef struct fd_keyed {
    uint32_t status;
    size_t at;
    fd_key key;
} fd_keyed;

/* The result of a function that writes a column. */
typedef struct fd_column {
    uint32_t status; /* FD_OK: all lines are converted; else why the next line is not */
    size_t at;       /* where the error is */
    size_t lines;    /* lines that are converted */
    size_t read;     /* bytes of these lines, with their line feeds: where the next line begins */
    size_t written;  /* bytes that are written */
    size_t failed;   /* lines that were skipped */
} fd_column;

/* The calls of a run. */
enum fd_kind {
    FD_SHIFT = 0,               /* times 10^position */
    FD_TRIM_START = 1,          /* no leading zeros */
    FD_TRIM_END = 2,            /* no trailing zeros among the fraction digits */
    FD_TRIM_END_IF_INTEGER = 3, /* no fraction digits if all are 0 */
    FD_PAD_START = 4,           /* zeros at all magnitudes from 0 to position - 1 */
    FD_PAD_END = 5,             /* zeros down to magnitude position */
    FD_MAX = 6,                 /* no digits at magnitude position and above */
    FD_ROUND = 7,               /* to a multiple of increment * 10^position, by the mode in option */
    FD_SIGN = 8,                /* the sign in option */
    FD_DISPLAY = 9,             /* the sign that the display in option shows */
    FD_CONCAT = 10              /* the digits of the operand at the end */
};

/* Options of FD_ROUND. */
enum fd_mode {
    FD_CEIL = 0,
    FD_FLOOR = 1,
    FD_EXPAND = 2,
    FD_TRUNC = 3,
    FD_HALF_CEIL = 4,
    FD_HALF_FLOOR = 5,
    FD_HALF_EXPAND = 6,
    FD_HALF_TRUNC = 7,
    FD_HALF_EVEN = 8
};

/* Options of FD_SIGN and of FD_DISPLAY. */
enum fd_sign_option { FD_NO_SIGN = 0, FD_MINUS = 1, FD_PLUS = 2 };
enum fd_display { FD_AUTO = 0, FD_NEVER = 1, FD_ALWAYS = 2, FD_EXCEPT_ZERO = 3, FD_NEGATIVE = 4 };

/* A call of a run. Fields that its kind does not use are ignored. */
typedef struct fd_call {
    uint8_t kind;      /* an fd_kind */
    uint8_t option;    /* an fd_mode, fd_sign_option or fd_display */
    uint8_t increment; /* FD_ROUND: 1, 2, 5 or 25 */
    int16_t position;  /* a position, or the distance of a shift */
    size_t text_start; /* FD_CONCAT: where the operand begins in the texts */
    size_t text_count; /* FD_CONCAT: its number of bytes */
} fd_call;

/* Where separators are written, and how strictly a text is read. */
enum fd_grouping { FD_GROUP_AUTO = 0, FD_GROUP_NEVER = 1, FD_GROUP_ALWAYS = 2, FD_GROUP_MIN2 = 3 };
enum fd_reading { FD_STRICT = 0, FD_LENIENT = 1 };

/* The form of a text: that of a locale, by its number or its tag; with neither, the text is a decimal's own. A tag is a
 * BCP 47 tag, or the name that a shell has (de_CH.UTF-8). With a skeleton the text is written as by
 * fd_format_by_skeleton, with the option ignored, or read as by fd_read_by_skeleton: the tag is needed, and the number
 * is ignored. */
typedef struct fd_form {
    uint64_t locale;       /* the number of the locale, from fd_locale; 0: the locale of the tag */
    size_t start;          /* where the tag begins in the texts; ignored with a number */
    size_t count;          /* its number of bytes; 0: no tag */
    size_t skeleton_start; /* where the number skeleton begins in the texts */
    size_t skeleton_count; /* its number of bytes; 0: no skeleton */
    uint8_t option;        /* of the text that is read an fd_reading, of the one that is written an fd_grouping */
} fd_form;

/* The forms in which a text is read and the result is written. */
typedef struct fd_forms {
    fd_form read;
    fd_form format;
} fd_forms;

/* What a word of the programs is. */
enum fd_word_kind { FD_READ_WORD = 0, FD_CALL_WORD = 1, FD_FORMAT_WORD = 2 };

/* A word of the programs. All fields that its kind does not use are 0, and with an error all but the status. */
typedef struct fd_word {
    uint32_t status; /* FD_OK, FD_UNKNOWN_CALL or FD_UNKNOWN_LOCALE */
    uint32_t kind;   /* an fd_word_kind */
    fd_call call;    /* FD_CALL_WORD: the call; its text_start counts from the word's first byte */
    fd_form form;    /* the others: the form; start and skeleton_start count from the word's first byte */
} fd_word;

/* Words of the options of a number: those of Intl.NumberFormat, and FD_PERMILLE, FD_HIDDEN and fd_decimal_separator of
 * ICU. */
enum fd_style { FD_DECIMAL = 0, FD_PERCENT = 1, FD_PERMILLE = 2, FD_CURRENCY = 3, FD_UNIT = 4 };
enum fd_currency_display { FD_SYMBOL = 0, FD_NARROW_SYMBOL = 1, FD_CODE = 2, FD_HIDDEN = 3, FD_NAME = 4 };
enum fd_currency_sign { FD_STANDARD_SIGN = 0, FD_ACCOUNTING = 1 };
enum fd_currency_usage { FD_STANDARD_USAGE = 0, FD_CASH = 1 };
enum fd_unit_display { FD_UNIT_SHORT = 0, FD_UNIT_NARROW = 1, FD_UNIT_LONG = 2 }; /* 5 km, 5km, 5 kilometers */
enum fd_notation {
    FD_STANDARD = 0,
    FD_SCIENTIFIC = 1,    /* 1.2E3 */
    FD_ENGINEERING = 2,   /* the same with an exponent that is a multiple of 3 */
    FD_COMPACT_SHORT = 3, /* 1.2M */
    FD_COMPACT_LONG = 4   /* 1.2 million */
};
enum fd_rounding_priority { FD_PRIORITY_AUTO = 0, FD_MORE_PRECISION = 1, FD_LESS_PRECISION = 2 };
enum fd_trailing_zeros { FD_SHOW_ZEROS = 0, FD_STRIP_IF_INTEGER = 1 };
enum fd_decimal_separator { FD_SEPARATOR_AUTO = 0, FD_SEPARATOR_ALWAYS = 1 }; /* 5 or 5. */

/* No number of digits, and no increment: the default of Intl.NumberFormat applies. */
#define FD_DEFAULT 65535

/* The options of a number, as those of Intl.NumberFormat; begin with FD_NUMBER_OPTIONS, its defaults.
 * Each is a word above, of an fd_display, an fd_grouping or an fd_mode, or what is said beside it. */
typedef struct fd_number_options {
    uint8_t style;
    uint8_t currency[3]; /* FD_CURRENCY: its code, three letters; one that is unknown has two fraction digits */
    uint8_t numbering_system[16]; /* its name padded with spaces, as "arab            "; zeros: that of the locale;
                                     other bytes are FD_UNKNOWN_OPTION */
    uint8_t currency_display;
    uint8_t currency_sign;
    uint8_t currency_usage; /* FD_CASH: the digits, and the increment that is not given, are those of cash */
    uint8_t unit;           /* FD_UNIT: the number of fd_unit; if it returns no such pair, FD_UNKNOWN_OPTION */
    uint8_t per_unit;       /* 0: none */
    uint8_t unit_display;
    uint8_t notation;
    uint8_t sign_display; /* of the number as it is rounded */
    uint8_t grouping;     /* in compact notation FD_GROUP_AUTO is FD_GROUP_MIN2 */
    uint8_t decimal_separator;
    uint8_t rounding_mode;
    uint8_t rounding_priority;
    uint8_t trailing_zeros;
    int16_t scale; /* times 10^scale, first: with FD_PERCENT Intl.NumberFormat has 2, so that 0.5 is 50% */
    uint16_t minimum_integer_digits;     /* 1 to 21 */
    uint16_t minimum_fraction_digits;    /* 0 to 100 */
    uint16_t maximum_fraction_digits;    /* 0 to 100 */
    uint16_t minimum_significant_digits; /* 1 to 21 */
    uint16_t maximum_significant_digits; /* 1 to 21 */
    /* 1, 2 or 5 with up to three zeros, 25 with up to two; by default 1, or that of cash */
    uint16_t rounding_increment;
} fd_number_options;

/* A plain number, with at most three fraction digits, half-expand. */
#define FD_NUMBER_OPTIONS                                                                                            \
    {FD_DECIMAL, {0, 0, 0}, {0, 0, 0, 0, 0, 0, 0, 0, 0, 0, 0, 0, 0, 0, 0, 0}, FD_SYMBOL, FD_STANDARD_SIGN,           \
     FD_STANDARD_USAGE, 0, 0, FD_UNIT_SHORT, FD_STANDARD, FD_AUTO, FD_GROUP_AUTO, FD_SEPARATOR_AUTO, FD_HALF_EXPAND, \
     FD_PRIORITY_AUTO, FD_SHOW_ZEROS, 0, FD_DEFAULT, FD_DEFAULT, FD_DEFAULT, FD_DEFAULT, FD_DEFAULT, FD_DEFAULT}

/* Why numbers of digits are those of no format, the first that holds. */
enum fd_digit_reason {
    FD_INTEGER_DIGITS = 0,      /* not 1 to 21 integer digits */
    FD_INCREMENT = 1,           /* no such increment */
    FD_SIGNIFICANT_DIGITS = 2,  /* not 1 to 21 significant digits, or the least is above the greatest */
    FD_FRACTION_DIGITS = 3,     /* more than 100 fraction digits, or the least is above the greatest */
    FD_INCREMENT_PRECISION = 4, /* an increment with significant digits, a priority, or compact notation by default */
    FD_INCREMENT_DIGITS = 5     /* an increment with two numbers of fraction digits */
};

/* Which numbers of digits of an fd_format_options are used. */
enum fd_precision {
    FD_ALL_DIGITS = 0,     /* none: all digits are shown */
    FD_BY_FRACTION = 1,    /* those of fraction digits */
    FD_BY_INCREMENT = 2,   /* the maximum of fraction digits, and the increment in units of the last of them */
    FD_BY_SIGNIFICANT = 3, /* those of significant digits */
    FD_BY_MORE = 4,        /* both: of the two roundings the one that keeps a lower digit */
    FD_BY_LESS = 5         /* both: the other one */
};

/* Which zeros are shown by FD_BY_MORE and FD_BY_LESS: those of the rounding that is chosen, or of both. */
enum fd_zeros { FD_ZEROS_OF_CHOSEN = 0, FD_ZEROS_OF_BOTH = 1 };

/* Which groups of integer digits are separated: those of the locale, or groups of three digits. */
enum fd_group_sizes { FD_GROUPS_OF_LOCALE = 0, FD_GROUPS_OF_THREE = 1 };
/* Whether another unit is written after a percentage, short or narrow and not in compact notation: 1% or 1%/h. */
enum fd_per_display { FD_PER_AUTO = 0, FD_PER_ALWAYS = 1 };

/* Which sign an exponent has: a minus sign below 0; also a plus sign else; none. */
enum fd_exponent_sign { FD_EXPONENT_AUTO = 0, FD_EXPONENT_ALWAYS = 1, FD_EXPONENT_NEVER = 2 };

/* All options of a formatter, also those that a skeleton has beyond fd_number_options, with the digits that are shown.
 * The words are those of fd_number_options, or what is said beside them. Numbers that `precision` does not use are
 * ignored, and so are the fields of a currency without FD_CURRENCY, those of a unit without FD_UNIT, and the digits of
 * an exponent without one. A skeleton may also name a unit that Intl.NumberFormat does not have. */
typedef struct fd_format_options {
    uint32_t minimum_significant_digits; /* 1 to 65536 */
    uint32_t maximum_significant_digits; /* the minimum to 65536, which is no maximum */
    int16_t scale;                       /* times 10^scale, first */
    uint16_t exponent_digits;            /* the least number of digits of an exponent */
    uint16_t minimum_integer_digits;     /* 0 to 32767; by 0 no integer digit has to be written: .5 */
    uint16_t maximum_integer_digits;     /* the minimum to 32768, which is no maximum */
    uint16_t minimum_fraction_digits;    /* 0 to 32768 */
    uint16_t maximum_fraction_digits;    /* the minimum to 65535, which is no maximum; FD_BY_INCREMENT: at most 32768 */
    uint16_t rounding_increment;         /* as in fd_number_options; 1 without FD_BY_INCREMENT */
    uint8_t style;
    uint8_t currency[3];
    uint8_t numbering_system[16]; /* its name padded with spaces */
    uint8_t currency_display;
    uint8_t currency_sign;
    uint8_t currency_usage;
    uint8_t unit;     /* as fd_unit has it */
    uint8_t per_unit; /* 0: none */
    uint8_t unit_display;
    uint8_t notation;
    uint8_t exponent_sign; /* an fd_exponent_sign */
    uint8_t sign_display;
    uint8_t grouping;
    uint8_t decimal_separator;
    uint8_t precision; /* an fd_precision */
    uint8_t zeros;     /* an fd_zeros */
    uint8_t rounding_mode;
    uint8_t trailing_zeros;
    uint8_t has_numbering_system; /* 1; 0: it is that of the locale, and the name is ignored */
    uint8_t group_sizes;          /* an fd_group_sizes */
    uint8_t per_display;          /* an fd_per_display */
    uint8_t reserved[28];         /* 0 */
} fd_format_options;

/* Rows of the library's tables, for what is written around the whole number. */
typedef struct fd_outer_rows {
    uint32_t kind;     /* 0: nothing, and the others are ignored; 1: a unit; 2: a unit and one after it; 3: a name */
    uint32_t texts;    /* of the unit, or the names of the currency */
    uint32_t patterns; /* of the second unit, or of numbers with names */
    uint8_t joiner;
    uint8_t code[3];
} fd_outer_rows;

/* Rows of the library's tables, for a locale and a currency or a unit. */
typedef struct fd_format_rows {
    uint64_t locale;       /* as fd_locale has it */
    uint32_t plural_rules; /* as fd_plural_rules has it */
    uint32_t currency;     /* 0: none, and the next three are ignored */
    uint16_t symbol;
    uint16_t narrow_symbol;
    uint16_t currency_pattern; /* 0: none */
    uint8_t percent;
    uint8_t standard;
    uint8_t accounting;
    uint8_t signs;
    uint8_t compact;
    uint8_t percent_unit;
    uint8_t money;
    uint8_t reserved[3]; /* 0 */
    fd_outer_rows outer;
} fd_format_rows;

/* A formatter of numbers: plain data of 152 bytes without a pointer, to be copied and shared between threads. Make it
 * by fd_formatter_by_options or fd_formatter_by_skeleton. Any bytes are allowed in it: those that name no row, no
 * option or no unit, or are not 0 where they are reserved, are FD_FORMATTER. The functions of ranges also return it for
 * a tag of no known locale. All zeros are no formatter. */
typedef struct fd_formatter {
    fd_format_rows rows;
    fd_format_options options;
    uint8_t tag[16]; /* the tag padded with spaces, or its first subtags: for ranges alone */
} fd_formatter;

/* The result of a function that makes a formatter; its bytes are 0 if status is not FD_OK. */
typedef struct fd_made {
    uint32_t status;
    size_t at;
    fd_formatter formatter;
} fd_made;

/* The result of a function that returns the options of a formatter: FD_OK or FD_FORMATTER. Its bytes are 0 if status
 * is not FD_OK. */
typedef struct fd_resolution {
    uint32_t status;
    fd_format_options options;
} fd_resolution;

/* What a part of a text is, as formatToParts of Intl.NumberFormat names it. */
enum fd_part_kind {
    FD_PART_INTEGER = 0,
    FD_PART_GROUP = 1,
    FD_PART_DECIMAL = 2,
    FD_PART_FRACTION = 3,
    FD_PART_MINUS_SIGN = 4,
    FD_PART_PLUS_SIGN = 5,
    FD_PART_PERCENT_SIGN = 6, /* also the permille sign */
    FD_PART_CURRENCY = 7, /* also its name */
    FD_PART_LITERAL = 8,
    FD_PART_COMPACT = 9,
    FD_PART_UNIT = 10,
    FD_PART_EXPONENT_SEPARATOR = 11,
    FD_PART_EXPONENT_MINUS_SIGN = 12,
    FD_PART_EXPONENT_PLUS_SIGN = 13,
    FD_PART_EXPONENT_INTEGER = 14,
    FD_PART_APPROXIMATELY_SIGN = 15 /* of a range, as in ~1 */
};

/* To which number of a range a part belongs, as formatRangeToParts of Intl.NumberFormat names it. */
enum fd_part_source {
    FD_SHARED = 0, /* to neither, or not all of it to one; also each part of one number */
    FD_START_RANGE = 1,
    FD_END_RANGE = 2
};

/* A part of a text: the bytes from start to end - 1. */
typedef struct fd_part {
    uint32_t kind;   /* an fd_part_kind */
    uint32_t source; /* an fd_part_source */
    size_t start;
    size_t end;
} fd_part;

/* The result of a function that writes a text and its parts. */
typedef struct fd_parted {
    uint32_t status;
    size_t at;
    size_t count; /* FD_OK: bytes written; FD_BUFFER_TOO_SMALL, FD_PARTS_TOO_SMALL: bytes needed; else 0 */
    size_t parts; /* the same for parts */
} fd_parted;

/* Types of plural rules: for numbers of things (2 days), and for places in an order (2nd day). */
enum fd_rule_type { FD_CARDINAL = 0, FD_ORDINAL = 1 };

/* Values of fd_category and fd_category_of. */
enum fd_plural { FD_ZERO = 0, FD_ONE = 1, FD_TWO = 2, FD_FEW = 3, FD_MANY = 4, FD_OTHER = 5 };

/* Something to point to where there are 0 bytes or calls. */
static const uint64_t fd_empty[1] = {0};
#define FD_NONE(type) ((const type *)(const void *)fd_empty)

/* Makes calls in order on the decimal that start writes, and writes the text of the result to the start of the buffer.
 *
 * FD_OK: the first count bytes of the buffer are exactly the text, and all other bytes are as they were.
 * Else the whole buffer is as it was. With capacity 0 it only returns the number of bytes, as FD_BUFFER_TOO_SMALL.
 * Errors: FD_SYNTAX, FD_LIMIT, FD_MEMORY, FD_OPERAND_SYNTAX, FD_OPERAND_LIMIT, FD_OVERLAP, FD_OVERFLOW,
 * FD_BUFFER_TOO_SMALL, FD_UNKNOWN_CALL. */
fd_result fd_run(const uint8_t *start, size_t start_count, const fd_call *calls, size_t call_count,
                 const uint8_t *texts, size_t texts_count, uint8_t *buffer, size_t capacity);

/* The same of a text that is read in one form, with the result written in another.
 * Errors: as fd_run, FD_UNKNOWN_LOCALE, FD_UNKNOWN_OPTION; with a skeleton FD_SKELETON_SYNTAX,
 * FD_SKELETON_UNSUPPORTED, FD_UNKNOWN_NUMBERING_SYSTEM; of the text that is read FD_UNREADABLE_FORMAT. */
fd_result fd_convert(const uint8_t *text, size_t count, const fd_forms *forms, const fd_call *calls, size_t call_count,
                     const uint8_t *texts, size_t texts_count, uint8_t *buffer, size_t capacity);

/* Reads one word as fixdec does: `read:LOCALE[:lenient][:SKELETON]`, a call, or `format:LOCALE[:GROUPING|:SKELETON]`.
 *
 * To convert by words, place them one after another into the texts, add the offset of each word there to its
 * text_start, start and skeleton_start, and pass the calls and the forms to fd_convert or fd_lines. Check that `read:`
 * is the first word and `format:` the last one, each at most once.
 * FD_UNKNOWN_CALL: it is no word, or not UTF-8, or its last option is empty, as in `format:de:`.
 * FD_UNKNOWN_LOCALE: the tag is empty, and there is no skeleton, as in `format:`: an fd_form without both would be that
 * of no locale. Other unknown locales, and wrong skeletons, are errors of fd_convert. */
fd_word fd_parse_word(const uint8_t *word, size_t count);

/* Formats a decimal as Intl.NumberFormat does, in the locale of a tag and by its options.
 *
 * The buffer is as after fd_run.
 * Errors, the first that holds: FD_UNKNOWN_OPTION; FD_DIGIT_OPTIONS; FD_UNKNOWN_LOCALE; FD_UNKNOWN_NUMBERING_SYSTEM;
 * FD_SYNTAX, FD_LIMIT, FD_MEMORY of the text; FD_OVERFLOW, FD_MEMORY of the format; FD_BUFFER_TOO_SMALL. */
fd_result fd_format_number(const uint8_t *text, size_t count, const uint8_t *tag, size_t tag_count,
                           const fd_number_options *options, uint8_t *buffer, size_t capacity);

/* Reads a number as fd_format_number writes it by this tag and these options, and writes the own text of the value that
 * it shows, with the scale undone: -1234.50 of "-1.234,50 €" by "de" and the currency EUR. It has all its grouping
 * separators, or none. If lenient is not 0, it may be as people type it: with other spaces and separators, and with
 * the symbol or the code of the currency, or the percent sign, on either side, or with nothing around it. In compact
 * notation "1.25M" is 1250000 by "en"; if lenient is not 0, "1250K" and "1.25 m" are too.
 *
 * The buffer is as after fd_run. It allocates.
 * Errors, the first that holds: of the options and the tag as fd_format_number; FD_UNREADABLE_FORMAT; FD_SYNTAX,
 * FD_LIMIT, FD_MEMORY of the text; FD_BUFFER_TOO_SMALL. */
fd_result fd_read_number(const uint8_t *text, size_t count, const uint8_t *tag, size_t tag_count,
                         const fd_number_options *options, uint32_t lenient, uint8_t *buffer, size_t capacity);

/* As fd_format_number, by a number skeleton of ICU: "currency/EUR .00", "percent @@", "K". The empty skeleton is ICU's
 * default: at most six fraction digits, half-even.
 * Errors: as there, but of the options FD_SKELETON_SYNTAX or FD_SKELETON_UNSUPPORTED. */
fd_result fd_format_by_skeleton(const uint8_t *text, size_t count, const uint8_t *tag, size_t tag_count,
                                const uint8_t *skeleton, size_t skeleton_count, uint8_t *buffer, size_t capacity);

/* As fd_read_number, by a number skeleton of ICU. Errors: as there, of the skeleton as fd_format_by_skeleton. */
fd_result fd_read_by_skeleton(const uint8_t *text, size_t count, const uint8_t *tag, size_t tag_count,
                              const uint8_t *skeleton, size_t skeleton_count, uint32_t lenient, uint8_t *buffer,
                              size_t capacity);

/* The numbers of the unit of a name, for fd_number_options: "kilometer", "meter-per-second", "mile-per-hour". It is one
 * of the 45 units of Intl.NumberFormat, or two of them with "-per-" between them; letters have to be of the same case.
 * Errors: FD_UNKNOWN_UNIT. */
fd_units fd_unit(const uint8_t *text, size_t count);

/* Writes the name of the unit with a number, also of one that Intl.NumberFormat does not have; of two units each has a
 * name. The buffer is as after fd_run; 40 bytes are enough.
 * Errors: FD_UNKNOWN_OPTION if no unit has the number; FD_BUFFER_TOO_SMALL. */
fd_result fd_unit_name(uint32_t number, uint8_t *buffer, size_t capacity);

/* Makes a formatter of the locale of a tag and options, or a number skeleton of ICU, so that they are looked up once.
 * Errors: as fd_format_number, or fd_format_by_skeleton, of the options and the tag. */
fd_made fd_formatter_by_options(const uint8_t *tag, size_t tag_count, const fd_number_options *options);
fd_made fd_formatter_by_skeleton(const uint8_t *tag, size_t tag_count, const uint8_t *skeleton,
                                 size_t skeleton_count);

/* Formats a decimal by a formatter: the text that fd_format_number writes by the same tag and options, or
 * fd_format_by_skeleton by the same skeleton.
 *
 * The buffer is as after fd_run.
 * Errors, the first that holds: FD_FORMATTER; FD_SYNTAX, FD_LIMIT, FD_MEMORY of the text; FD_OVERFLOW, FD_MEMORY of the
 * format; FD_BUFFER_TOO_SMALL. */
fd_result fd_format(const fd_formatter *formatter, const uint8_t *text, size_t count, uint8_t *buffer,
                    size_t capacity);

/* Formats each line, as fd_lines does by a form: with skip, a line that fails is an empty line.
 * Errors: FD_FORMATTER, with no line; else as fd_format of the next line. */
fd_column fd_format_column(const fd_formatter *formatter, const uint8_t *lines, size_t count, uint32_t skip,
                           uint8_t *buffer, size_t capacity);

/* Formats a decimal as fd_format does, and writes the parts of the text to the start of an array: consecutive bytes of
 * one kind are one part, so the parts have all bytes of the text in order.
 *
 * FD_OK: the first count bytes of the buffer are the text, the first `parts` parts of the array are its parts, and all
 * others are as they were. Else the buffer and the array are as they were. With capacity 0 it only returns the numbers.
 * Errors: as fd_format, and then FD_PARTS_TOO_SMALL. */
fd_parted fd_format_parts(const fd_formatter *formatter, const uint8_t *text, size_t count, uint8_t *buffer,
                          size_t capacity, fd_part *parts, size_t part_capacity);

/* Formats the range of two decimals by a formatter, as formatRange of Intl.NumberFormat does: "1,00–2,00 €", or
 * "≈1,00 €" if both are equal, or have one sign and are rounded to the same digits, and have the same text around them.
 * The first may be above the second. The buffer is as after fd_run.
 * Errors, the first that holds: FD_FORMATTER; FD_SYNTAX, FD_LIMIT, FD_MEMORY of the first text, and then of the second
 * one, with at 1; FD_OVERFLOW of the first number, and then of the second one, or FD_MEMORY; FD_BUFFER_TOO_SMALL. */
fd_result fd_format_range(const fd_formatter *formatter, const uint8_t *start, size_t start_count, const uint8_t *end,
                          size_t end_count, uint8_t *buffer, size_t capacity);

/* Formats the range of two decimals as fd_format_range does, and writes the parts of the text as fd_format_parts does:
 * consecutive bytes of one kind are one part, also if they belong to two numbers.
 *
 * The buffer and the array are as after fd_format_parts.
 * Errors: as fd_format_range, and then FD_PARTS_TOO_SMALL. */
fd_parted fd_format_range_parts(const fd_formatter *formatter, const uint8_t *start, size_t start_count,
                                const uint8_t *end, size_t end_count, uint8_t *buffer, size_t capacity, fd_part *parts,
                                size_t part_capacity);

/* Reads a number as fd_format writes it, as fd_read_number does. It allocates.
 * Errors, the first that holds: FD_FORMATTER; FD_UNREADABLE_FORMAT; FD_SYNTAX, FD_LIMIT, FD_MEMORY of the text;
 * FD_BUFFER_TOO_SMALL. */
fd_result fd_read(const fd_formatter *formatter, const uint8_t *text, size_t count, uint32_t lenient, uint8_t *buffer,
                  size_t capacity);

/* The options of a formatter with their defaults, and the name of its numbering system. */
fd_resolution fd_resolved(const fd_formatter *formatter);

/* Writes a skeleton that reads as these options, for an fd_form, in the words of ICU's normal form: FD_DECIMAL with
 * FD_COMPACT_SHORT is "compact-short rounding-mode-half-up". It allocates; the buffer is as after fd_run.
 * Errors, the first that holds: FD_UNKNOWN_OPTION; FD_DIGIT_OPTIONS; FD_MEMORY; FD_NO_SKELETON; FD_BUFFER_TOO_SMALL. */
fd_result fd_skeleton(const fd_number_options *options, uint8_t *buffer, size_t capacity);

/* Converts each line as fd_convert does, and writes the text of each with a line feed. A line is all bytes up to a line
 * feed; the bytes after the last line feed are a line if there are any.
 *
 * With skip, a line that fails is an empty line, and failed counts them; FD_MEMORY ends the column all the same.
 * Else the column ends before the first line that fails, with its error. Where the buffer is too small, it ends before
 * the first line that does not fit: call again from `read` with another buffer. What was written before is whole; all
 * bytes after `written` are as they were. */
fd_column fd_lines(const uint8_t *lines, size_t count, uint32_t skip, const fd_forms *forms, const fd_call *calls,
                   size_t call_count, const uint8_t *texts, size_t texts_count, uint8_t *buffer, size_t capacity);

/* Writes the line of an error, as the programs print it: "call 1: overflow" of FD_OVERFLOW at 1. `calls` is the number
 * of calls that were passed, and 0 for a function without calls: FD_OVERFLOW at this number or above is
 * "format: overflow". FD_SYNTAX is "start: syntax" at 0, and else "end: syntax", of the second text of a range;
 * FD_LIMIT likewise. The text of FD_OK is empty. The buffer is as after fd_run; 80 bytes are enough.
 * Errors: FD_UNKNOWN_OPTION if no fd_status has the number; FD_BUFFER_TOO_SMALL. */
fd_result fd_status_text(uint32_t status, size_t at, size_t calls, uint8_t *buffer, size_t capacity);

/* The order of two numbers: -1, 0 or 1. 1.0 and 1 are 0. Errors: FD_SYNTAX, FD_LIMIT, FD_MEMORY. */
fd_number fd_compare(const uint8_t *left, size_t left_count, const uint8_t *right, size_t right_count);

/* The key of the number of a decimal, so that its text is not read each time that it is compared.
 * Errors: as fd_compare; FD_NOT_WHOLE: the number has more than 18 fraction digits; FD_OUT_OF_RANGE: it has no key of
 * 128 bits, or the text shows nearly 32768 integer digits. */
fd_keyed fd_key_of(const uint8_t *text, size_t count);

/* The order of the numbers of two keys: -1, 0 or 1, as fd_compare of two texts with these keys. There is no error. */
fd_number fd_compare_keys(const fd_key *left, const fd_key *right);

/* 1 if two texts write the same value, with its sign and its zeros, else 0. Errors as fd_compare. */
fd_number fd_equal(const uint8_t *left, size_t left_count, const uint8_t *right, size_t right_count);

/* The sign that is shown: -1 a minus, 0 none, 1 a plus. Errors as fd_compare. */
fd_number fd_sign(const uint8_t *text, size_t count);

/* The integer, whatever zeros are shown. Errors: as fd_compare, FD_NOT_WHOLE, FD_OUT_OF_RANGE. */
fd_number fd_to_i64(const uint8_t *text, size_t count);
fd_unsigned fd_to_u64(const uint8_t *text, size_t count);

/* The plural category of a decimal, an fd_plural, by rules in CLDR's syntax: "one: i = 1 and v = 0".
 * Errors: as fd_compare, FD_RULES_SYNTAX, FD_RULES_LIMIT. */
fd_number fd_category(const uint8_t *rules, size_t rules_count, const uint8_t *text, size_t count);

/* The number of the locale of a tag, for an fd_form: so the tag is not looked up each time. It is at least 1, and below
 * 2^49. Errors: FD_UNKNOWN_LOCALE. */
fd_unsigned fd_locale(const uint8_t *tag, size_t count);

/* The number of the plural rules of a tag, of an fd_rule_type. It is at least 1, and below 2^18. A tag without rules
 * for which fd_locale has a number has rules by which each number is FD_OTHER.
 * Errors: FD_UNKNOWN_LOCALE, FD_UNKNOWN_OPTION. */
fd_unsigned fd_plural_rules(const uint8_t *tag, size_t count, uint32_t type);

/* The number of the plural rules of the locale that a word names: a tag, or a tag and ":cardinal" or ":ordinal". Of
 * each other word it is 0: the word is a text of rules, or none. Errors: FD_UNKNOWN_LOCALE. */
fd_unsigned fd_rules(const uint8_t *word, size_t count);

/* As fd_category, by the rules with a number that fd_plural_rules or fd_rules returned.
 * Errors: as fd_compare; FD_UNKNOWN_LOCALE if no rules have the number. */
fd_number fd_category_of(uint64_t rules, const uint8_t *text, size_t count);

/* The plural category of a range of numbers in the language of a tag, by the categories of its first and its second
 * number, each an fd_plural: in "ru" that of 1 to 5, FD_ONE and FD_MANY, is FD_MANY. Cardinal and ordinal numbers have
 * the same ones. Errors, the first that holds: FD_UNKNOWN_OPTION if there is no such category; FD_UNKNOWN_LOCALE. */
fd_number fd_category_range(const uint8_t *tag, size_t count, uint32_t start, uint32_t end);

#ifdef __cplusplus
}
#endif
#endif
