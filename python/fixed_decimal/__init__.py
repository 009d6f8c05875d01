"""Exact decimals for display: numbers that keep their zeros, with the digits and groups of a locale.

>>> Decimal("1234.565").round(-2, "half-even").format("de")
'1.234,56'
>>> column(["250", "5"], "shift:-2", format="de")
['2,50', '0,05']
>>> NumberFormat("de", style="currency", currency="EUR").format("1234.5")
'1.234,50\xa0€'
"""
from ._errors import DecimalError
from ._native import Decimal, NumberFormat, __version__
from ._native import column as _column
from ._native import plural_range as _plural_range
from ._options import number_skeleton

__all__ = ["Decimal", "DecimalError", "NumberFormat", "column", "number_skeleton", "plural_range"]


def column(texts, *calls, read=None, read_skeleton=None, lenient=False, format=None, skeleton=None, errors="raise",
           **options):
    """Makes the calls on each text, and returns the texts of the results.

    The calls are words of the programs:

    >>> column(["1234.565", "7"], "round:-2:half-even:1", "display:always")
    ['+1234.56', '+7.00']

    With `read` the texts are as a locale writes them, also by a number skeleton, or leniently as people type them; and
    with `format` the results: by a `NumberFormat`, or by a locale, and a number skeleton or options as `Decimal.format`
    takes them:

    >>> column(["1.234,50 €"], read="de", read_skeleton="currency/EUR", lenient=True, format="en-IN")
    ['1,234.50']
    >>> column(["5", "1234.5"], format="de", style="currency", currency="EUR")
    ['5,00\xa0€', '1.234,50\xa0€']
    >>> column(["5", "1234567"], format=NumberFormat("en", notation="compact"))
    ['5', '1.2M']

    As in `Decimal.format`, options round to three fraction digits by default (ECMA-402). With no options but
    `use_grouping` and `sign_display` all digits and zeros stay:

    >>> column(["1234.56780"], format="de", use_grouping=False)
    ['1234,56780']

    Without `read`, a text may also be an int, a `Decimal` or a `decimal.Decimal`:

    >>> column([1234, Decimal("5.50")], format="de")
    ['1.234', '5,50']

    Raises `DecimalError` for the first text that fails. If `errors` is "skip", the result of a text that fails is None;
    if it is "keep", the result is what is in the list:

    >>> column(["250", "x", "7"], "shift:-2", errors="skip")
    ['2.50', None, '0.07']

    An item of another type, such as a float, is a TypeError all the same. Long lists take several threads.
    """
    texts = texts if type(texts) is list else list(texts)
    return _column(texts, calls, read, read_skeleton, bool(lenient), format, skeleton, errors, options)


def plural_range(locale, start, end):
    """Returns the plural category of a range of numbers, by the categories of its first and of its last number.

    >>> plural_range("ru", Decimal("1").plural("ru"), Decimal("5").plural("ru"))
    'many'

    Cardinal and ordinal numbers have the same ones. Raises `DecimalError` if the locale is unknown.
    """
    return _plural_range(locale, start, end)
