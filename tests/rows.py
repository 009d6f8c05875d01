#!/usr/bin/env python3
"""Checks rows of numbers in locales against the C library: `tests/rows.py [FILE..]`, by default tests/rows/*.tsv.

A row has fields with tabs between them. Blank lines, and lines that start with `# `, are not rows.

    LOCALE STRATEGY NUMBER TEXT         A decimal by the symbols of a locale and a grouping strategy: `auto`, `never`,
                                        `always` or `min2`. TEXT: `unknown` if the locale is not listed.
    LOCALE SYSTEM STRATEGY NUMBER TEXT  The same with another numbering system.
    LOCALE read|lenient TEXT VALUE      A text that is read by these symbols, and its value or error.
    LANGUAGE cardinal|ordinal NUMBER CATEGORY
    [LOCALE] OPTIONS NUMBER TEXT        A number by options, in `en` without a locale. OPTIONS: words `name=value` or
                                        JSON, as `row_options.py` says. TEXT: the text, or the name of the error.
    [LOCALE] OPTIONS TEXT VALUE         With `check=read` or `check=lenient`.
    OPTIONS COUNT LOCALES               With `check=readers`: in COUNT locales such numbers are read, of all that
                                        tools/locales/symbols.tsv has; and those in which they are not, with blanks.
    [LOCALE] OPTIONS NUMBER PARTS       With `check=parts`: `|kind=text` each; or JSON, a list of lists.
    LOCALE OPTIONS START END TEXT       A range of two numbers, or its parts, each with its source.
    [LOCALE] OPTIONS START..END PARTS   The same with `check=parts`: `|kind=text@source` each.
    SKELETON OPTIONS                    Its options; `syntax K` with the offset of the error, `unsupported STEM`; `=`
                                        and another skeleton that has the same options; or `>` and the skeleton that
                                        they are printed as, which has the same (`crates/cli_vectors` prints it).

Each row of a file wrong.tsv has to fail, and each of a file malformed.tsv to be none of these. Of options that are
rejected the number is empty, and the text may also be the class of ECMA-402's error. In numbers and texts `0*3` after a
space is `000`; in skeletons `«@*3»` is `@@@`, and `␉`, `␊` and `␍` are a tab, a line feed and a carriage return.

`node tools/locales/node.js vectors` writes rows of decimals and categories for all locales, by the node that is
installed, which has to be node 20 for the texts of CLDR 48.

A text of a row is also read back, where its numbers are read. The lines before the last one say of each notation how
many texts are, and in which locales how many are not, since there is no reader.

The last line is `N passed, M failed`; the status is 0 if M is 0.
"""
import collections
import ctypes
import functools
import glob
import json
import os
import re
import sys
import unicodedata

sys.dont_write_bytecode = True
from c_library import NUMBERS, ROOT, TYPES, fd
from row_options import fields_of, has_beyond, number_options, options_of_words, parse_options, set_beyond

OK, SYNTAX, LIMIT, TOO_SMALL = (NUMBERS[f"FD_{name}"] for name in ("OK", "SYNTAX", "LIMIT", "BUFFER_TOO_SMALL"))
OVERFLOW, UNKNOWN_LOCALE = NUMBERS["FD_OVERFLOW"], NUMBERS["FD_UNKNOWN_LOCALE"]
UNREADABLE, DIGIT_OPTIONS = NUMBERS["FD_UNREADABLE_FORMAT"], NUMBERS["FD_DIGIT_OPTIONS"]
SKELETON_SYNTAX, UNSUPPORTED = NUMBERS["FD_SKELETON_SYNTAX"], NUMBERS["FD_SKELETON_UNSUPPORTED"]
STANDARD, COMPACT = NUMBERS["FD_STANDARD"], (NUMBERS["FD_COMPACT_SHORT"], NUMBERS["FD_COMPACT_LONG"])
PERCENT, CURRENCY, UNIT, NAME = (NUMBERS[f"FD_{name}"] for name in ("PERCENT", "CURRENCY", "UNIT", "NAME"))
BY_INCREMENT, NEVER, EXPONENT_NEVER = (NUMBERS[f"FD_{name}"] for name in ("BY_INCREMENT", "NEVER", "EXPONENT_NEVER"))

# The names and the classes of errors of digit options, by fd_digit_reason.
REASONS = [("IntegerDigits", "RangeError"), ("Increment", "RangeError"), ("SignificantDigits", "RangeError"),
           ("FractionDigits", "RangeError"), ("IncrementPrecision", "TypeError"), ("IncrementDigits", "RangeError")]
READ_ERRORS = {SYNTAX: "syntax", LIMIT: "limit"}
GROUPINGS = ["auto", "never", "always", "min2"]
READINGS = ["read", "lenient"]
RULES = ["cardinal", "ordinal"]
CATEGORIES = ["zero", "one", "two", "few", "many", "other"]
KINDS = ["integer", "group", "decimal", "fraction", "minusSign", "plusSign", "percentSign", "currency", "literal",
         "compact", "unit", "exponentSeparator", "exponentMinusSign", "exponentPlusSign", "exponentInteger",
         "approximatelySign"]
SOURCES = ["shared", "startRange", "endRange"]
# The options of what is around a number.
WORD_OPTIONS = ["notation", "compactDisplay", "numberingSystem"]
TEXT_OPTIONS = ["style", "unit", "unitDisplay", "currency", "currencyDisplay", "currencySign", *WORD_OPTIONS]
HANIDEC = {digit: value for value, digit in enumerate("〇一二三四五六七八九")}
NEGATIVE = set("-(\u2212\u2010\u2011\u2012\ufe63\uff0d")
ROOM = ctypes.create_string_buffer(1 << 18)
PARTS = (TYPES["fd_part"] * (1 << 16))()
CHECKS = [None, "parts", "read", "lenient", "readers"]
NOTATIONS = ["standard", "scientific", "engineering", "compact", "compact"]
# How many texts of a notation are read back, and how many of a locale have no reader.
READ_BACK = {notation: collections.Counter() for notation in NOTATIONS}
UNREAD = {notation: collections.Counter() for notation in NOTATIONS}
# What rows of a file are, if they do not hold: False, or None for no rows.
WANTED = {"wrong.tsv": False, "malformed.tsv": None}
# No calls; C wants no null pointer.
CALLS = TYPES["fd_call"]()


def sized(text):
    """The bytes of a text, and their number."""
    found = text if isinstance(text, bytes) else text.encode()
    return found, len(found)


def written(function, *arguments, room=len(ROOM)):
    """The text that a function writes into a buffer, or its status."""
    answer = function(*arguments, ROOM, room)
    return ctypes.string_at(ROOM, answer.count).decode() if answer.status == OK else answer.status


def is_written(text, function, *arguments):
    """Whether a function writes a text into a buffer that has room for it, and nothing into one with a byte less."""
    size = len(text.encode())
    if written(function, *arguments, room=size) != text:
        return False
    return size == 0 or written(function, *arguments, room=size - 1) == TOO_SMALL


def expanded(field):
    """A number or a text without repetitions. Texts of node have blanks, and no stars."""
    if "*" not in field:
        return field
    parts = (part.split("*") for part in field.split(" "))
    return "".join(text * int(*count or "1") for text, *count in parts)


@functools.lru_cache(256)
def formatter(tag, words):
    """The fd_made of a locale and options, with what they have beyond ECMA-402, and an fd_number_options if nothing."""
    options = parse_options(words)
    number = number_options(options)
    made = fd.fd_formatter_by_options(*sized(tag), ctypes.byref(number))
    set_beyond(made.formatter.options, options)
    return made, None if has_beyond(options) else number


# ---- Numbers.

def formatted(made, number):
    return written(fd.fd_format, made.formatter, *sized(number))


def read(made, text, lenient):
    return written(fd.fd_read, made.formatter, *sized(text), lenient)


def parts(function, *arguments):
    """The kinds, texts and sources of the parts that a function writes, or its status."""
    answer = function(*arguments, ROOM, len(ROOM), PARTS, len(PARTS))
    if answer.status != OK:
        return answer.status
    text = ctypes.string_at(ROOM, answer.count)
    return [(KINDS[it.kind], text[it.start:it.end].decode(), SOURCES[it.source]) for it in PARTS[:answer.parts]]


def divide(found, text):
    """Whether parts have all of a text, each of another kind than the one before."""
    return ("".join(piece for _, piece, _ in found) == text and all(piece for _, piece, _ in found)
            and all(first[0] != second[0] for first, second in zip(found, found[1:])))


def are_shared(found):
    """Whether parts are of one number."""
    return all(source == "shared" for *_, source in found)


def has_number(text):
    return digits(text, "") != ""


def plain_texts(tag, options, numbers, names=TEXT_OPTIONS):
    """The texts of numbers by options with these names, with the digits that they have by default, without a scale."""
    words = [f"{name}={options[name]}" for name in names if name in options]
    plain, _ = formatter(tag, " ".join([*words, "scale=0"]))
    return [formatted(plain, number) for number in numbers]


def has_unreadable_unit(tag, options):
    """Whether the unit has texts without a number."""
    return not all(map(has_number, plain_texts(tag, options, map(str, range(101)))))


def has_name(own):
    """Whether a unit or the name of a currency is written."""
    return own.style == UNIT or own.style == CURRENCY and own.currency_display == NAME


def has_unreadable_words(own, tag, options):
    """Whether a number has a word without a number, or two numbers have the same text, without a unit and a name."""
    numbers = [f"{digit}e{power}" for digit in (1, 2, 3, 5) for power in range(16)]
    texts = plain_texts(tag, options, numbers, WORD_OPTIONS if has_name(own) else TEXT_OPTIONS)
    return len(set(texts)) < len(texts) or not all(map(has_number, texts))


def may_be_unreadable(made, tag, options):
    """Whether there may be no reader: of a unit or words without a number, of words with two meanings, of numbers that
    are not in standard notation with an increment, and of an exponent without a sign."""
    own = made.formatter.options
    if own.scale == -32768 or own.minimum_integer_digits == 0 or own.decimal_separator:
        return True
    if own.style == UNIT and has_unreadable_unit(tag, options):
        return True
    if own.notation == STANDARD:
        return False
    if own.precision == BY_INCREMENT or own.maximum_integer_digits < 32768:
        return True
    if own.notation in COMPACT:
        return has_unreadable_words(own, tag, options)
    return own.exponent_sign == EXPONENT_NEVER


def is_read_without_an_end(made, text, value):
    """Whether a text has the same value without its first or its last character, where this is no digit."""
    cuts = [(text[:1], text[1:]), (text[-1:], text[:-1])]
    return any(read(made, rest, 0) == value for end, rest in cuts if not has_number(end))


def reads_back(made, tag, options, text):
    """Whether both readers read a text back as a number with this text, or as zero, which may show fewer zeros when it
    is rounded once more."""
    value = read(made, text, 0)
    own = made.formatter.options
    notation = NOTATIONS[own.notation]
    if value == UNREADABLE:
        UNREAD[notation][tag] += 1
        return may_be_unreadable(made, tag, options)
    READ_BACK[notation][tag] += 1
    if text.endswith("E-32769"):
        return value == LIMIT
    if not isinstance(value, str) or read(made, text, 1) != value:
        return False
    # A unit and a name have texts of other categories, which may begin with each other.
    if own.notation != STANDARD and not has_name(own) and is_read_without_an_end(made, text, value):
        return False
    if not value.strip("-+0."):
        return True
    again = formatted(made, value)
    # Without a sign the word of -1 may be another one: in French `1 millier`, and `mille` of 1.
    if own.sign_display == NEVER and formatted(made, f"-{value}") == text:
        return True
    # In compact notation a unit, a name and the space of a percent sign may be those of the number before it was
    # rounded, as the space in Icelandic.
    by_whole = own.notation in COMPACT and (own.style == PERCENT or has_name(own))
    return again == text or by_whole and digits(again) == digits(text) and read(made, again, 0) == value


def has_text(made, number, options, tag, text, value):
    """Whether a value has a text by a formatter, by options and in parts, which is read back; or the error Limit."""
    ways = [(fd.fd_format, (made.formatter, *sized(value)))]
    if number:
        ways.append((fd.fd_format_number, (*sized(value), *sized(tag), number)))
    found = parts(fd.fd_format_parts, made.formatter, *sized(value))
    if text == "Limit":
        return found == OVERFLOW and all(written(function, *it) == OVERFLOW for function, it in ways)
    return (all(is_written(text, function, *it) for function, it in ways) and isinstance(found, list)
            and divide(found, text) and are_shared(found) and reads_back(made, tag, options, text))


def has_parts(made, fields, expected):
    """Whether a number, or a range of two numbers, has parts."""
    if len(fields) == 1:
        found = parts(fd.fd_format_parts, made.formatter, *sized(fields[0]))
    else:
        found = parts(fd.fd_format_range_parts, made.formatter, *sized(fields[0]), *sized(fields[1]))
    if not isinstance(found, list):
        return False
    if len(fields) == 1 and are_shared(found):
        found = [part[:2] for part in found]
    if expected.startswith("[["):
        return found == [tuple(part) for part in json.loads(expected)]
    return "".join(f"|{kind}={text}" + "".join(f"@{it}" for it in source) for kind, text, *source in found) == expected


def is_range(made, start, end, text):
    """Whether a range of two numbers has a text, also in parts."""
    arguments = (made.formatter, *sized(start), *sized(end))
    found = parts(fd.fd_format_range_parts, *arguments)
    return is_written(text, fd.fd_format_range, *arguments) and isinstance(found, list) and divide(found, text)


# ---- Texts that are read.

def digits(text, zeros="0"):
    """The digits of a text, without zeros at the ends."""
    found = (unicodedata.decimal(it, HANIDEC.get(it)) for it in text)
    return "".join(str(digit) for digit in found if digit is not None).strip(zeros)


def is_own(made, text):
    """Whether lenient reading rejects a text, or returns a value of its digits, but for zeros at the ends, and sign."""
    value = read(made, text, 1)
    if value in READ_ERRORS:
        return True
    shown = text.decode()
    is_negative = bool(NEGATIVE & set(shown))
    return isinstance(value, str) and digits(value) == digits(shown) and (value[0] == "-") == is_negative


def is_utf8(text):
    try:
        text.decode()
    except UnicodeDecodeError:
        return False
    return True


def is_only_text(made, text, value):
    """Whether no cut of a text, no removal of a byte, and no change of one leaves its value, and lenient reading keeps
    the digits and the sign of each."""
    for at in range(len(text)):
        front, rest, without = text[:at], text[at:], text[:at] + text[at + 1:]
        cuts = [front, without, *[rest] * (at > 0)]
        changed = [text[:at] + bytes([byte]) + text[at + 1:] for byte in range(256)]
        typed = [rest, without, *(changed[byte] for byte in b"019.,-()% a")]
        if any(read(made, it, 0) == value for it in cuts + changed if it != text):
            return False
        if not all(is_own(made, it) for it in typed if is_utf8(it)):
            return False
    return True


def reads(made, options, text, expected):
    """Whether a text has a value or an error, also when it is read leniently, and no text with a change has the value.
    A text with an exponent has more digits than its value, and one without a number has fewer, so no changes of these
    are tried."""
    value = read(made, text, 0)
    if READ_ERRORS.get(value, value) != expected:
        return False
    if expected in READ_ERRORS.values() or len(text.encode()) > 100:
        return True
    has_other_digits = {"notation", "scientific", "engineering"} & options.keys() or not has_number(text)
    return (has_other_digits or is_only_text(made, text.encode(), expected)) and read(made, text, 1) == expected


@functools.lru_cache(None)
def locales():
    """The tags of all locales."""
    with open(f"{ROOT}/tools/locales/symbols.tsv", encoding="utf-8") as file:
        return sorted({line.split("\t")[0] for line in file} - {"root"})


def has_reader(tag, words):
    """Whether numbers by options are read in a locale: then no number has the empty text."""
    made, _ = formatter(tag, words)
    if made.status != OK:
        raise ValueError(f"no such numbers in {tag}: {words}")
    return read(made, "", 0) == SYNTAX


@functools.lru_cache(None)
def unread(words):
    """The tags of the locales in which numbers by options are not read."""
    return [tag for tag in locales() if not has_reader(tag, words)]


def are_readers(words, count, expected):
    """Whether numbers by options are read in a number of locales, and not in those that are expected."""
    return count == str(len(locales()) - len(unread(words))) and expected == " ".join(unread(words))


def is_number(tag, words, options, fields, expected):
    """Whether a row of options holds."""
    checked = options.get("check")
    if checked not in CHECKS or len(fields) > 2 or len(fields) == 2 and checked not in (None, "parts"):
        raise ValueError(f"no check of {len(fields)} texts: {checked}")
    if checked == "readers":
        return are_readers(words, *fields, expected)
    made, number = formatter(tag, words)
    if made.status == DIGIT_OPTIONS:
        return fields == [""] and expected in REASONS[made.at]
    if made.status != OK:
        return False
    if checked == "parts" or expected.startswith("[["):
        return has_parts(made, fields if len(fields) == 2 else fields[0].split(".."), expected)
    if len(fields) == 2:
        return is_range(made, *fields, expected)
    text, expected = expanded(fields[0]), expanded(expected)
    if checked == "read":
        return reads(made, options, text, expected)
    if checked == "lenient":
        value = read(made, text, 1)
        return READ_ERRORS.get(value, value) == expected
    return has_text(made, number, options, tag, expected, text)


# ---- Decimals by the symbols of a locale, and plural categories.

def converted(tag, text, reading=None, grouping=None):
    """A text that is read by the symbols of a locale, or written by them, or its status."""
    tags, size = sized(tag)
    forms = TYPES["fd_forms"]()
    for form, words, word in ((forms.read, READINGS, reading), (forms.format, GROUPINGS, grouping)):
        if word:
            form.count, form.option = size, words.index(word)
    return written(fd.fd_convert, *sized(text), forms, CALLS, 0, tags, size)


def is_decimal(tag, word, number, text):
    """Whether a row of a locale and a grouping strategy or a reading holds."""
    number, text = expanded(number), expanded(text)
    if word in READINGS:
        found = converted(tag, number, reading=word)
        return READ_ERRORS.get(found, found) == text
    if fd.fd_locale(*sized(tag)).status == UNKNOWN_LOCALE:
        return text == "unknown"
    own = written(fd.fd_run, *sized(number), CALLS, 0, b"", 0)
    if converted(tag, number, grouping=word) != text:
        return False
    return all(converted(tag, text, reading=it) == own for it in READINGS)


def is_category(tag, word, number, category):
    """Whether a number has a category by the plural rules of a language."""
    rules = fd.fd_plural_rules(*sized(tag), RULES.index(word))
    if rules.status != OK:
        return rules.status == UNKNOWN_LOCALE and category == "unknown"
    found = fd.fd_category_of(rules.value, *sized(number))
    return found.status == OK and CATEGORIES[found.value] == category


# ---- Skeletons.

def unescaped(text):
    """A skeleton without escapes and repetitions."""
    text = re.sub(r"«(.*?)\*(\d+)»", lambda run: run[1] * int(run[2]), text, flags=re.S)
    return text.translate({ord("␉"): "\t", ord("␊"): "\n", ord("␍"): "\r"})


def stem_at(skeleton, offset):
    """The stem at an offset in bytes."""
    return re.match("[^\t\n\v\f\r \x85\u200e\u200f\u2028\u2029/]*", skeleton.encode()[offset:].decode())[0]


def reading(skeleton):
    """The options of a skeleton, as a dictionary of the fields of C, or its error."""
    made = fd.fd_formatter_by_skeleton(*sized("en"), *sized(skeleton))
    if made.status == SKELETON_SYNTAX:
        return f"syntax {made.at}"
    if made.status == UNSUPPORTED:
        return f"unsupported {stem_at(skeleton, made.at)}"
    assert made.status == OK, made.status
    return fields_of(made.formatter.options)


def is_skeleton(skeleton, expected):
    """Whether a skeleton has options or an error."""
    found = reading(unescaped(skeleton))
    if expected[:1] in ("=", ">"):
        # Both may have the same stem that the library does not have, but no error of syntax.
        is_syntax_error = isinstance(found, str) and found.startswith("syntax ")
        return not is_syntax_error and found == reading(unescaped(expected[1:]))
    if expected.startswith(("syntax ", "unsupported ")):
        return found == unescaped(expected)
    return found == options_of_words(expected)


def holds(fields):
    """Whether a row holds."""
    if not 2 <= len(fields) <= 5:
        raise ValueError(f"no row has {len(fields)} fields")
    if len(fields) == 2:
        return is_skeleton(*fields)
    if len(fields) == 3:
        fields = ["en", *fields]
    tag, words, *numbers, expected = fields
    options = parse_options(words)
    if options is not None:
        return is_number(tag, words, options, numbers, expected)
    if len(numbers) == 2:
        tag, words, numbers = f"{tag}-u-nu-{words}", numbers[0], numbers[1:]
    if words not in RULES + READINGS + GROUPINGS:
        raise ValueError(f"no such word: {words}")
    return (is_category if words in RULES else is_decimal)(tag, words, *numbers, expected)


def outcome(line):
    """Whether a line is a row that holds; None if it is no row, and a word if the library writes no UTF-8."""
    try:
        return holds(line.rstrip("\n").split("\t"))
    except UnicodeDecodeError:
        return "no UTF-8"
    except (ValueError, LookupError):
        return None


def check(name, line, index, failures):
    """Checks a line, and appends it to the failures if it is a row that fails; returns the number of rows."""
    if line.startswith("# ") or line == "\n":
        return 0
    if outcome(line) is not WANTED.get(os.path.basename(name), True):
        failures.append(f"{name}, line {index}: {line[:300].rstrip()}")
    return 1


def main(names):
    count, failures = 0, []
    if not names:
        sys.exit("no files of rows")
    for name in names:
        with open(name, encoding="utf-8", newline="\n") as file:
            found = sum(check(name, line, index, failures) for index, line in enumerate(file, 1))
        if found == 0:
            sys.exit(f"{name} has no rows")
        count += found
    print("\n".join(failures[:20]))
    for notation in READ_BACK:
        unread = ", ".join(f"{tag} {number}" for tag, number in sorted(UNREAD[notation].items())) or "none"
        print(f"{notation} notation: {READ_BACK[notation].total()} texts are read back; without a reader: {unread}")
    print(f"{count - len(failures)} passed, {len(failures)} failed")
    return len(failures) > 0


if __name__ == "__main__":
    sys.exit(main(sys.argv[1:] or sorted(glob.glob(f"{ROOT}/tests/rows/*.tsv"))))
