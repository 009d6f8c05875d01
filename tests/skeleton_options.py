#!/usr/bin/env python3
"""Prints random options as skeletons by the C library, and formats a number by both: `tests/skeleton_options.py [N]`.

Of N options (100,000) each has a skeleton, except where no stem says it: signs of accounting that are never shown,
permille in compact notation, cash with other digits than its own, and an unknown numbering system. The number has the
same text, or the same error, by the options and by their skeleton. The seed is fixed.
"""
import ctypes
import random
import sys

sys.dont_write_bytecode = True
from c_library import TYPES, fd

OK, UNKNOWN_OPTION, DIGIT_OPTIONS, NO_SKELETON, DEFAULT = 0, 11, 20, 21, 65535
CURRENCY, PERMILLE, COMPACT, NEVER, ACCOUNTING, CASH, STANDARD, UNIT, NAME = 3, 2, (3, 4), 1, 1, 1, 0, 4, 4
# The fraction digits and the increment of `precision-currency-cash` in ICU, and those of ECMA-402 that are others.
CASH_DIGITS = {b"USD": (2, 1), b"EUR": (2, 1), b"CHF": (2, 5), b"JPY": (0, 1), b"DKK": (1, 5), b"KWD": (3, 1)}
ECMA_CASH = {b"DKK": (2, 50)}
# Percent is none of them: `unit/percent` of a skeleton is the style percent.
UNITS = [b"meter", b"day", b"kilometer-per-hour", b"liter-per-mile", b"meter-per-meter"]
SYSTEMS = [b"latn", b"arab", b"arabext", b"beng", b"deva", b"thai", b"hanidec", b"fullwide"]
NUMBERS = ["0", "-0.5", "1234567.891", "-999.995", "0.000123455", "25000", "-12.5", "1e21"]
Options = TYPES["fd_number_options"]
room = ctypes.create_string_buffer(1 << 17)


def counts(rng, low, high, most):
    """Two numbers of digits, of which either may be the default."""
    least, greatest = sorted(rng.choices(range(low, rng.choice([high, most]) + 1), k=2))
    return rng.choice([DEFAULT, least]), rng.choice([DEFAULT, greatest])


def set_counts(options, name, numbers):
    for end, number in zip(("minimum", "maximum"), numbers):
        setattr(options, f"{end}_{name}_digits", number)


def random_options(rng):
    name = rng.choice(SYSTEMS * 8 + [b"roman", b"latx", b"la/n"]) if rng.random() < 0.3 else b""
    style, notation = rng.randrange(4), rng.choice([0, 0, 0, 1, 2, 3, 4])
    options = Options(style=style, currency=(ctypes.c_uint8 * 3)(*rng.choice(list(CASH_DIGITS))), notation=notation,
                      numbering_system=(ctypes.c_uint8 * 16)(*(name.ljust(16) if name else bytes(16))),
                      currency_display=rng.randrange(4), currency_sign=rng.randrange(2),
                      currency_usage=rng.randrange(2), sign_display=rng.randrange(5), grouping=rng.randrange(4),
                      rounding_mode=rng.randrange(9), trailing_zeros=rng.randrange(2),
                      scale=rng.choice([0, 0, 2, -2, rng.randrange(-300, 300), rng.randrange(-32768, 32768)]),
                      minimum_integer_digits=rng.choice([DEFAULT, DEFAULT, 1, rng.randrange(1, 22)]),
                      rounding_increment=DEFAULT)
    set_counts(options, "fraction", counts(rng, 0, 6, 100))
    set_counts(options, "significant", (DEFAULT, DEFAULT))
    if rng.random() < 0.5:
        options.rounding_priority = rng.randrange(3)
        set_counts(options, "significant", counts(rng, 1, 6, 21))
    elif rng.random() < 0.3:
        options.rounding_increment = rng.choice([1, 2, 5, 10, 20, 25, 50, 100, 200, 250, 500, 1000, 2000, 2500, 5000])
        set_counts(options, "fraction", [rng.choice([0, 1, 2, 3, 4, 5, 100])] * 2)
    if rng.random() < 0.4:
        set_counts(options, "fraction", (DEFAULT, DEFAULT))
        set_counts(options, "significant", (DEFAULT, DEFAULT))
        options.rounding_priority, options.rounding_increment = 0, DEFAULT
    return options


def set_texts(options, rng):
    """Sets a unit, the name of the currency, or the decimal separator now and then."""
    if rng.random() < 0.2:
        name = rng.choice(UNITS)
        units = fd.fd_unit(name, len(name))
        options.style, options.unit, options.per_unit = UNIT, units.unit, units.per_unit
        options.unit_display = rng.randrange(3)
    if rng.random() < 0.2:
        options.currency_display = NAME
    options.decimal_separator = rng.random() < 0.2


def has_own_cash(options):
    """Whether the digits are those of `precision-currency-cash`, or None where these rules do not say it."""
    own = CASH_DIGITS[bytes(options.currency)]
    significant = {options.minimum_significant_digits, options.maximum_significant_digits}
    if options.rounding_priority or significant != {DEFAULT}:
        return False
    if options.notation != STANDARD:
        return None
    digits, increment = ECMA_CASH.get(bytes(options.currency), own)
    least, greatest = options.minimum_fraction_digits, options.maximum_fraction_digits
    if least == DEFAULT:
        least = min(digits, greatest)
    if greatest == DEFAULT:
        greatest = max(digits, least)
    if options.rounding_increment != DEFAULT:
        increment = options.rounding_increment
    return (least, greatest, increment) == (own[0], *own)


def has_skeleton(options):
    """Whether the options have one, or None if these rules do not say it."""
    name = bytes(options.numbering_system).rstrip()
    if name.strip(b"\0") and name not in SYSTEMS or options.style == PERMILLE and options.notation in COMPACT:
        return False
    if options.style != CURRENCY:
        return True
    if options.currency_sign == ACCOUNTING and options.sign_display == NEVER:
        return False
    return has_own_cash(options) if options.currency_usage == CASH else True


def text_of(answer):
    return ctypes.string_at(room, answer.count) if answer.status == OK else answer.status


def is_right(options, number):
    """Whether the skeleton of options says them; None if the digits are those of no format."""
    answer = fd.fd_skeleton(options, room, len(room))
    if answer.status == DIGIT_OPTIONS:
        return None
    if answer.status == UNKNOWN_OPTION:
        return b"/" in bytes(options.numbering_system)
    if answer.status == NO_SKELETON:
        return not has_skeleton(options)
    skeleton = text_of(answer)
    if answer.status != OK or has_skeleton(options) is False:
        return False
    given, end = [number, len(number), b"de", 2], [room, len(room)]
    by_options = text_of(fd.fd_format_number(*given, options, *end))
    return by_options == text_of(fd.fd_format_by_skeleton(*given, skeleton, len(skeleton), *end))


def main(count):
    rng, texts, right, wrong = random.Random(81), random.Random(83), 0, 0
    while right + wrong < count:
        options = random_options(rng)
        set_texts(options, texts)
        answer = is_right(options, rng.choice(NUMBERS).encode())
        right, wrong = right + (answer is True), wrong + (answer is False)
        if answer is False and wrong <= 10:
            print({name: bytes(value) if hasattr(value, "__len__") else value
                   for name, value in ((field[0], getattr(options, field[0])) for field in Options._fields_)})
    print(f"{right} passed, {wrong} failed")
    return wrong > 0


if __name__ == "__main__":
    sys.exit(main(int(sys.argv[1]) if len(sys.argv) > 1 else 100_000))
