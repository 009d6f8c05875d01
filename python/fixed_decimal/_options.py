"""The options of `Intl.NumberFormat` (ECMA-402) by their names, as the structs of the C library have them."""
import functools
import operator
import re
import struct

from ._native import NumberFormat
from ._native import skeleton as _skeleton
from ._native import unit as _unit
from ._native import unit_name as _unit_name

# The words of each option that has some, by their numbers in the structs; False is no grouping.
_WORDS = {
    "style": ("decimal", "percent", "permille", "currency", "unit"),
    "currency_display": ("symbol", "narrow-symbol", "code", "hidden", "name"),
    "currency_sign": ("standard", "accounting"),
    "currency_usage": ("standard", "cash"),
    "unit_display": ("short", "narrow", "long"),
    "notation": ("standard", "scientific", "engineering", "compact"),
    "compact_display": ("short", "long"),
    "sign_display": ("auto", "never", "always", "except-zero", "negative"),
    "use_grouping": ("auto", False, "always", "min2"),
    "rounding_mode": ("ceil", "floor", "expand", "trunc", "half-ceil", "half-floor", "half-expand", "half-trunc",
                      "half-even"),
    "rounding_priority": ("auto", "more-precision", "less-precision"),
    "trailing_zero_display": ("auto", "strip-if-integer"),
    "exponent_sign": ("auto", "always", "never"),
    "decimal_separator": ("auto", "always"),
    "group_sizes": ("locale", "thousands"),
    "per_display": ("auto", "always"),
}
# Words that number skeletons have, and ECMA-402 has not.
_OF_SKELETONS = ("permille", "hidden")
# The options of ECMA-402 with their defaults; no number of digits has one that is always the same.
_DEFAULTS = {
    "style": "decimal", "currency": "", "currency_display": "symbol", "currency_sign": "standard",
    "unit": "", "unit_display": "short",
    "notation": "standard", "compact_display": "short", "sign_display": "auto", "use_grouping": "auto",
    "minimum_integer_digits": None, "minimum_fraction_digits": None, "maximum_fraction_digits": None,
    "minimum_significant_digits": None, "maximum_significant_digits": None, "rounding_increment": None,
    "rounding_mode": "half-expand", "rounding_priority": "auto", "trailing_zero_display": "auto",
    "numbering_system": "",
}
_NAMES = {"currency": "|[A-Za-z]{3}", "unit": "(?s:.*)", "numbering_system": "|[a-z0-9]{3,8}"}
_COUNTS = [option for option, value in _DEFAULTS.items() if value is None]
_NO_COUNT = 65535


# No function below makes another one: CPython 3.12 and 3.13 may crash if they are out of memory for that.
def _with_hyphen(capital):
    return "-" + capital[0].lower()


def _word(option, word):
    """The word of an option, with hyphens."""
    if isinstance(word, str):
        word = re.sub("[A-Z]", _with_hyphen, word)
    elif not (option == "use_grouping" and isinstance(word, bool)):
        raise TypeError(f"{option} is a str, not {type(word).__name__}")
    if word not in _WORDS[option] + (True,) or word in _OF_SKELETONS:
        raise ValueError(f"no such {option}: {word}")
    return "always" if word is True else word


def _name(option, name):
    """The name of a currency, of a unit or of a numbering system, as a str of no subclass."""
    if not isinstance(name, str):
        raise TypeError(f"{option} is a str, not {type(name).__name__}")
    if not (found := re.fullmatch(_NAMES[option], name)):
        raise ValueError(f"no such {option}: {name}")
    return found[0]


def _count(option, count):
    """A number of digits, or an increment; or None."""
    if count is None:
        return None
    try:
        found = operator.index(count)
    except TypeError:
        raise TypeError(f"{option} is an int, not {type(count).__name__}") from None
    if not 0 <= found < _NO_COUNT:
        raise ValueError(f"no such {option}: {found}")
    return found


def _value(option, value):
    if option not in _DEFAULTS:
        raise TypeError(f"no such option: {option}")
    return (_word if option in _WORDS else _name if option in _NAMES else _count)(option, value)


def number_options(**options):
    """Returns the bytes of an `fd_number_options`, and as pairs the options that are not the defaults."""
    own = {option: found for option, value in options.items() if (found := _value(option, value)) != _DEFAULTS[option]}
    named = _DEFAULTS | own
    if named["style"] == "currency" and not named["currency"]:
        raise ValueError("style='currency' needs a currency, such as currency='EUR'")
    if named["style"] == "unit" and not named["unit"]:
        raise ValueError("style='unit' needs a unit, such as unit='kilometer'")
    unit, per_unit = _unit(named["unit"]) if named["unit"] else (0, 0)
    number = {option: words.index(named[option]) for option, words in _WORDS.items() if option in named}
    is_long = named["notation"] == "compact" and number["compact_display"]
    system = named["numbering_system"].encode()
    found = struct.pack(
        "=B3s16s13Bxh6H", number["style"], named["currency"].encode(), system and system.ljust(16),
        number["currency_display"], number["currency_sign"], 0, unit, per_unit, number["unit_display"],
        number["notation"] + is_long, number["sign_display"], number["use_grouping"], 0, number["rounding_mode"],
        number["rounding_priority"], number["trailing_zero_display"],
        2 if named["style"] == "percent" else 0,
        *[_NO_COUNT if named[option] is None else named[option] for option in _COUNTS])
    return found, tuple(sorted(own.items()))


# By types, since True is equal to 1.
kept_number_options = functools.lru_cache(256, typed=True)(number_options)


@functools.lru_cache(64, typed=True)
def kept_number_format(locale, /, skeleton=None, **options):
    """Returns `NumberFormat(..)` of these arguments, which are equal only to themselves."""
    return NumberFormat(locale, skeleton=skeleton, **options)


def _digits_of(precision, fraction, significant):
    """The numbers of digits that an `fd_precision` uses, as options; None is no maximum."""
    names = []
    if precision not in (0, 3):
        names += zip(("minimum_fraction_digits", "maximum_fraction_digits"), fraction)
    if precision > 2:
        names += zip(("minimum_significant_digits", "maximum_significant_digits"), significant)
    return {name: None if count > 32768 else count for name, count in names}


def _words(**numbers):
    """The words of options by their numbers."""
    return {option: _WORDS[option][number] for option, number in numbers.items()}


def _unit_text(unit, per_unit):
    """The name of a unit by its numbers."""
    return _unit_name(unit) + ("-per-" + _unit_name(per_unit) if per_unit else "")


def resolved_options(locale, options):
    """Returns a dictionary of the options of a locale that an `fd_format_options` has, from its bytes."""
    (least, most, scale, exponent_digits, integer, most_integer, fraction, most_fraction, increment, style, currency,
     system, display, sign, usage, unit, per_unit, unit_display, notation, exponent_sign, sign_display, grouping,
     separator, precision, _, mode, zeros, _, group_sizes, per_display) = struct.unpack("=IIh6HB3s16s18B28x", options)

    found = {"locale": locale, "numbering_system": system.decode().rstrip(" "), **_words(style=style)}
    if found["style"] == "currency":
        found |= {"currency": currency.decode(), **_words(currency_display=display, currency_sign=sign)}
        found |= _words(currency_usage=usage) if usage else {}
    elif found["style"] == "unit":
        found |= {"unit": _unit_text(unit, per_unit), **_words(unit_display=unit_display)}
        found |= _words(per_display=per_display) if per_display else {}
    if scale != 2 * (found["style"] == "percent"):
        found["scale"] = scale
    if separator:
        found |= _words(decimal_separator=separator)
    if group_sizes:
        found |= _words(group_sizes=group_sizes)
    found["minimum_integer_digits"] = integer
    if most_integer < 32768:
        found["maximum_integer_digits"] = most_integer
    found |= _digits_of(precision, (most_fraction if precision == 2 else fraction, most_fraction), (least, most))
    found |= _words(use_grouping=grouping, notation=min(notation, 3))
    if notation > 2:
        found |= _words(compact_display=notation - 3)
    elif notation and (exponent_digits, exponent_sign) != (1, 0):
        found |= {"minimum_exponent_digits": exponent_digits, **_words(exponent_sign=exponent_sign)}
    found |= {**_words(sign_display=sign_display), "rounding_increment": increment if precision == 2 else 1}
    return found | _words(rounding_mode=mode, rounding_priority=max(precision - 3, 0), trailing_zero_display=zeros)


def number_skeleton(**options):
    """Returns a number skeleton of options by their names in ECMA-402, with its defaults, in the words of ICU's normal
    form.

    The words are those of ECMA-402, or the same with hyphens: `halfEven` or `half-even`. Raises `DecimalError` where
    there is none, as of amounts in accounting without a sign.

    >>> number_skeleton(style="currency", currency="EUR", rounding_mode="half-even")
    'currency/EUR'
    >>> number_skeleton(notation="compact")
    'compact-short rounding-mode-half-up'
    """
    return _skeleton(number_options(**options)[0])
