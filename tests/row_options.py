"""The options of rows of numbers, as the structs of C have them.

Options are words `name=value` by the names of ECMA-402, or JSON. These are beyond ECMA-402:

- The precision: `fraction=MIN,MAX`, `multiples=DIGITS,INCREMENT`, `significant=MIN,MAX`, and `more` or `less` with the
  numbers of both and the zeros that are shown, as `more=0,2;1,3;chosen` or `more=0,2;1,3;both`.
- `integer=MIN,MAX`, the integer digits.
- `scientific=DIGITS,SIGN` and `engineering=DIGITS,SIGN`, with the digits and the sign of the exponent.
- `scale=POWER`, which replaces that of the style before it.
- `groupSizes`: `locale` or `thousands`.
- `perDisplay`: `auto`, or `always` if another unit is written after a percentage.
- `decimalSeparator`, and the words `permille` and `hidden`, as ICU has them.

`check` is no option, but what a row checks.
"""
import ctypes
import functools
import json
import re

from c_library import NUMBERS, TYPES, fd

# The words of options by their numbers in C. The field is the name in small letters, or the one that is named.
WORDS = {
    "style": "decimal percent permille currency unit",
    "currencyDisplay": "symbol narrowSymbol code hidden name",
    "currencySign": "standard accounting",
    "currencyUsage": "standard cash",
    "unitDisplay": "short narrow long",
    "notation": "standard scientific engineering compact",
    "signDisplay": "auto never always exceptZero negative",
    "useGrouping": "auto false always min2",
    "decimalSeparator": "auto always",
    "roundingMode": "ceil floor expand trunc halfCeil halfFloor halfExpand halfTrunc halfEven",
    "roundingPriority": "auto morePrecision lessPrecision",
    "trailingZeroDisplay": "auto stripIfInteger",
}
WORDS = {name: words.split() for name, words in WORDS.items()}
FIELDS = {"useGrouping": "grouping", "trailingZeroDisplay": "trailing_zeros"}
COUNTS = ["minimumIntegerDigits", "minimumFractionDigits", "maximumFractionDigits", "minimumSignificantDigits",
          "maximumSignificantDigits", "roundingIncrement"]
LENGTHS = ["short", "long"]
SCALES = {"percent": 2, "permille": 3}
FRACTION = ["minimum_fraction_digits", "maximum_fraction_digits"]
SIGNIFICANT = ["minimum_significant_digits", "maximum_significant_digits"]
PRECISIONS = ["all", "fraction", "multiples", "significant", "more", "less"]
# What options have beyond those of ECMA-402.
BEYOND = ["integer", "scientific", "engineering", "groupSizes", "perDisplay", *PRECISIONS]


def field_of(name):
    """The field of a struct of C with the option of a name."""
    return FIELDS.get(name) or re.sub("[A-Z]", lambda capital: "_" + capital[0].lower(), name)


@functools.lru_cache(None)
def unit_numbers():
    """The numbers of all units by their names."""
    room, found = ctypes.create_string_buffer(64), {}
    for number in range(1, 256):
        answer = fd.fd_unit_name(number, room, len(room))
        if answer.status == NUMBERS["FD_OK"]:
            found[room[:answer.count].decode()] = number
    return found


@functools.lru_cache(None)
def unit(name):
    """The numbers of a unit, also of one that ECMA-402 does not have."""
    found = fd.fd_unit(name.encode(), len(name.encode()))
    if found.status == NUMBERS["FD_OK"]:
        return found.unit, found.per_unit
    numbers = unit_numbers()
    if name in numbers:
        return numbers[name], 0
    first, second = name.split("-per-")
    return numbers[first], numbers[second]


def set_bytes(struct, field, text, size):
    """Sets a field of bytes to a text, padded with spaces."""
    setattr(struct, field, type(getattr(struct, field))(*text.encode().ljust(size)))


def set_number(struct, field, number):
    """Sets a field to a number, which has to fit."""
    setattr(struct, field, number)
    if getattr(struct, field) != number:
        raise ValueError(f"{field} does not hold {number}")


def set_option(struct, name, value):
    """Sets an option that both structs have."""
    if name in WORDS:
        setattr(struct, field_of(name), WORDS[name].index(value))
        if name == "style":
            struct.scale = SCALES.get(value, 0)
    elif name == "currency":
        set_bytes(struct, "currency", value, 3)
    elif name == "numberingSystem":
        set_bytes(struct, "numbering_system", value, 16)
    elif name == "unit":
        struct.unit, struct.per_unit = unit(value)
    elif name in COUNTS or name == "scale":
        set_number(struct, field_of(name), int(value))
    elif name == "compactDisplay":
        LENGTHS.index(value)
    elif name not in BEYOND and name != "check":
        raise ValueError(f"no such option: {name}")


def set_options(struct, options):
    """Sets the options that both structs have."""
    for name, value in options.items():
        set_option(struct, name, value)
    struct.notation += options.get("notation") == "compact" and options.get("compactDisplay") == "long"
    for notation in {"scientific", "engineering"} & options.keys():
        struct.notation = WORDS["notation"].index(notation)


def set_pair(struct, fields, words):
    """Sets two fields to numbers with a comma between them."""
    numbers = words.split(",")
    if len(numbers) != len(fields):
        raise ValueError(f"no two numbers: {words}")
    for field, number in zip(fields, numbers):
        set_number(struct, field, int(number))


def set_precision(struct, name, value):
    """Sets the precision of an fd_format_options."""
    struct.precision, struct.rounding_increment = PRECISIONS.index(name), 1
    words = value.split(";")
    if name == "multiples":
        set_pair(struct, ("maximum_fraction_digits", "rounding_increment"), value)
        struct.minimum_fraction_digits = struct.maximum_fraction_digits
    elif name == "significant":
        set_pair(struct, SIGNIFICANT, value)
    else:
        set_pair(struct, FRACTION, words[0])
    if name in ("more", "less"):
        set_pair(struct, SIGNIFICANT, words[1])
        struct.zeros = ["chosen", "both"].index(words[2])


def set_beyond(struct, options):
    """Sets what options have beyond those of ECMA-402 in an fd_format_options."""
    for name, value in options.items():
        if name in PRECISIONS:
            set_precision(struct, name, value)
        elif name == "integer":
            set_pair(struct, ("minimum_integer_digits", "maximum_integer_digits"), value)
        elif name == "groupSizes":
            struct.group_sizes = ["locale", "thousands"].index(value)
        elif name == "perDisplay":
            struct.per_display = ["auto", "always"].index(value)
        elif name in BEYOND:
            digits, sign = value.split(",")
            set_number(struct, "exponent_digits", int(digits))
            struct.exponent_sign = ["auto", "always", "never"].index(sign)


def has_beyond(options):
    """Whether options have more than those of ECMA-402."""
    return bool(options.keys() & set(BEYOND))


def number_options(options):
    """The fd_number_options of options, without what they have beyond those of ECMA-402."""
    struct = TYPES["fd_number_options"](rounding_mode=NUMBERS["FD_HALF_EXPAND"])
    for name in COUNTS:
        setattr(struct, field_of(name), NUMBERS["FD_DEFAULT"])
    set_options(struct, options)
    return struct


def named(pairs):
    """A dictionary of names and values, each name once."""
    found = dict(pairs)
    if len(found) < len(pairs):
        raise ValueError(f"a name is there twice: {pairs}")
    return found


def parse_options(words):
    """The options of words, or of JSON; None if a field is neither."""
    if words[:1] != "{":
        return named([word.split("=", 1) for word in words.split()]) if "=" in words or not words else None
    shown = {"True": "always", "true": "always", "False": "false"}
    found = {name: str(value) for name, value in json.loads(words, object_pairs_hook=named).items()}
    return {name: shown.get(value, value) if name == "useGrouping" else value for name, value in found.items()}


def fields_of(struct):
    """The fields of a struct as a dictionary."""
    found = ((name, getattr(struct, name)) for name, *_ in struct._fields_)
    return {name: bytes(value) if hasattr(value, "__len__") else value for name, value in found}


def options_of_words(words):
    """The options of words that say all digits, as a dictionary of the fields of C."""
    options = parse_options(words)
    struct = TYPES["fd_format_options"](minimum_integer_digits=1, maximum_integer_digits=32768,
                                        has_numbering_system="numberingSystem" in options)
    set_options(struct, options)
    struct.exponent_digits = struct.notation in (1, 2)
    set_beyond(struct, options)
    return fields_of(struct)
