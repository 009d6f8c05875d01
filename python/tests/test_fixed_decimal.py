"""The module beside Python's decimal: `python3 test_fixed_decimal.py [CASES]`. Prints `N passed, M failed` last.

A test that this python cannot run is a line `not run: ..`.
"""
import ast
import copy
import decimal
import doctest
import functools
import importlib.metadata
import inspect
import json
import os
import pickle
import random
import re
import signal
import sys
import threading
import time
import tracemalloc

import fixed_decimal
from fixed_decimal import Decimal, DecimalError, NumberFormat, column, number_skeleton, plural_range

MODES = {  # those that decimal has
    "ceil": decimal.ROUND_CEILING, "floor": decimal.ROUND_FLOOR, "expand": decimal.ROUND_UP,
    "trunc": decimal.ROUND_DOWN, "half-even": decimal.ROUND_HALF_EVEN, "half-expand": decimal.ROUND_HALF_UP,
    "half-trunc": decimal.ROUND_HALF_DOWN,
}
CONTEXT = decimal.Context(prec=400, Emin=-999999, Emax=999999, traps=[decimal.InvalidOperation])
passed, failures = 0, []


def check(good, *case):
    global passed
    if good:
        passed += 1
    else:
        failures.append(case)


def raises(error, call, reason=None, text=None):
    try:
        call()
    except error as found:
        check(reason is None or found.reason == reason, error, reason, found)
        check(text is None or str(found) == text, error, text, found)
    else:
        check(False, error, reason, text)


def random_text(rng):
    whole = "".join(rng.choices("0123456789", k=rng.choice((1, 1, 2, 3, 5, 9, 20, 45))))
    part = "".join(rng.choices(rng.choice(("0123456789", "0059")), k=rng.choice((0, 1, 2, 3, 6, 20, 45))))
    return rng.choice(("", "-", "")) + whole + ("." + part if part else "")


def without_leading_zeros(text):
    sign = "-" if text.startswith("-") else ""
    body = text.lstrip("-").lstrip("0")
    return sign + (body if body and body[0] != "." else "0" + body)


def test_random(cases):
    rng = random.Random(7)
    for _ in range(cases):
        text, position = random_text(rng), rng.randint(-8, 6)
        ours, theirs = Decimal(text), decimal.Decimal(text)
        check(str(ours) == text and repr(ours) == f"Decimal('{text}')", text)
        for mode, name in MODES.items():
            want = theirs.quantize(decimal.Decimal((0, (1,), position)), name, CONTEXT)
            if position > 0:
                want = CONTEXT.quantize(want, decimal.Decimal(1))
            got = str(ours.round(position, mode))
            check(without_leading_zeros(got) == format(want, "f"), text, position, mode, got)
        other = random_text(rng)
        second, their_second = Decimal(other), decimal.Decimal(other)
        check((ours < second) == (theirs < their_second) and (ours >= second) == (theirs >= their_second), text, other)
        check(ours.compare(second) == int(theirs.compare(their_second)), text, other)
        check((ours == second) == (text == other) and ours == Decimal(text) and hash(ours) == hash(Decimal(text)), text)
        power = rng.randint(-30, 30)
        check(decimal.Decimal(str(ours.shift(power))) == CONTEXT.scaleb(theirs, power), text, power)
        check(decimal.Decimal(str(ours.trim())) == theirs and str(ours.trim()).strip("-") not in ("", "."), text)
        check(decimal.Decimal(str(ours.pad(9, -9))) == theirs, text)
        specification = rng.choice((".2f", ",", ",.3f", "+.1f", "020.4f", "e", ".3%", "+12", "<+9"))
        check(format(ours, specification) == format(theirs, specification), text, specification)


def test_as_decimal(cases):
    """What Python's functions and operators make of a number is what they make of a decimal.Decimal."""
    rng = random.Random(12)
    zeros = ["0", "-0", "+0", "0.00", "-0.00", "000", "-0." + "0" * 300]
    ties = ["2.5", "3.5", "-2.5", "-0.5", "0.5", "1.5", "0.05", "9.995", "99.5", "-99.95"]
    wide = [str(2**63 - 1), str(2**63), str(-(2**63)), str(-(2**63) - 1), "-" + "9" * 300 + ".5", str(2**63 - 1) + ".5"]
    for text in zeros + ties + wide + [random_text(rng) for _ in range(cases)]:
        ours, theirs = Decimal(text), decimal.Decimal(text)
        places = rng.randint(-6, 6)
        check(type(ours.as_decimal()) is decimal.Decimal and str(ours.as_decimal()) == str(theirs), text)
        check(bool(ours) == bool(theirs), "bool", text)
        check((int(ours), round(ours), type(int(ours))) == (int(theirs), round(theirs), int), "int", text)
        with decimal.localcontext(CONTEXT):
            wants = -theirs, abs(theirs)
            want = round(theirs, places)
        found = -ours, abs(ours)
        check([format(it.as_decimal(), "f") for it in found] == [format(it, "f") for it in wants], "-d, abs", text)
        check(-ours == ours.with_sign("none" if text[0] == "-" or not ours else "minus"), "-d", text)
        check(abs(ours) == ours.with_sign("none"), "abs", text)
        found = round(ours, places)
        check(found == ours.round(-places), "round", text, places, found)
        check(without_leading_zeros(str(found).lstrip("+")) == format(want, "f"), "round", text, places, found)
    long = Decimal("-" + "9" * 32768 + ".5")
    check(int(long) == 1 - 10**32768 and long.with_sign("none") == abs(long), "the greatest int")
    raises(DecimalError, lambda: round(long), "overflow")
    check(round(Decimal("2.345"), True) == Decimal("2.3") and round(Decimal("2.5"), None) == 2, "no number of decimals")
    check([str(Decimal("-5").with_sign(sign)) for sign in ("none", "minus", "plus")] == ["5", "-5", "+5"], "signs")
    for wrong in (2.0, "2", decimal.Decimal(2)):
        raises(TypeError, lambda: round(Decimal(1), wrong))
    for wrong in (32769, -32768, 10**30, -(10**30)):
        raises(OverflowError, lambda: round(Decimal(1), wrong))
    for error, wrong in ((ValueError, "plus\0"), (ValueError, "always"), (TypeError, None), (TypeError, -1)):
        raises(error, lambda: Decimal(1).with_sign(wrong))
    raises(TypeError, lambda: Decimal(1).__round__(1, 2))
    raises(TypeError, lambda: Decimal(1) + Decimal(1))


def test_other_modes(cases):
    """By their definition: a tie goes up, or down."""
    rng = random.Random(8)
    for _ in range(cases):
        text, position = random_text(rng), rng.randint(-8, 0)
        value, unit = decimal.Decimal(text), decimal.Decimal((0, (1,), position))
        down, up = (value.quantize(unit, mode, CONTEXT) for mode in (decimal.ROUND_FLOOR, decimal.ROUND_CEILING))
        half = CONTEXT.add(down, CONTEXT.divide(unit, decimal.Decimal(2)))
        for mode, want in (("half-ceil", down if value < half else up), ("half-floor", up if value > half else down)):
            check(decimal.Decimal(str(Decimal(text).round(position, mode))) == want, text, position, mode)


def test_padding(cases):
    """A specification that has only a fill, an alignment and a width pads the text, as a number."""
    rng = random.Random(10)
    for _ in range(cases):
        width, fill = rng.randint(1, 60), rng.choice("*x0 é€😀<=")
        text = random_text(rng)
        if text[0] != "-" and rng.random() < 0.2:
            text = "+" + text
        sign = text[: text[0] in "+-"]
        rows = [
            ("", text), (f"{width}", text.rjust(width)), (f"0{width}", text.zfill(width)), ("0", text), ("<", text),
            (f">{width}", text.rjust(width)), (f"<{width}", text.ljust(width)),
            (f"{fill}>{width}", text.rjust(width, fill)), (f"{fill}<{width}", text.ljust(width, fill)),
            (f"{fill}^{width}", format(text, f"{fill}^{width}")), (f"^{width}", format(text, f"^{width}")),
            (f"{fill}={width}", sign + text[len(sign):].rjust(width - len(sign), fill)),
        ]
        for specification, want in rows:
            found = format(Decimal(text), specification)
            check(found == want, text, specification, found)
            if str(decimal.Decimal(text)) == text:
                check(format(decimal.Decimal(text), specification) == want, text, specification, "decimal")
    for bad in ("<06", "006", "6x", "de", "6" * 30, "x", "<<<6"):
        raises((ValueError, OverflowError), lambda: format(decimal.Decimal(1), bad))
        raises((ValueError, OverflowError), lambda: format(Decimal(1), bad))
    raises(TypeError, lambda: Decimal(1).__format__(6))


def test_numbers(cases):
    """An int or a decimal.Decimal is as its text without an exponent, or beyond the limit at once."""
    rng = random.Random(11)
    for _ in range(cases):
        digits = tuple(rng.randrange(10) for _ in range(rng.choice((1, 2, 9, 30))))
        exponent = rng.choice((0, 0, rng.randint(-40, 40), rng.randint(-33000, -32700), rng.randint(32700, 33000)))
        value = decimal.Decimal((rng.randrange(2), digits, exponent))
        whole, _, part = format(value, "f").lstrip("-").partition(".")
        if len(whole) > 32768 or len(part) > 32768:
            raises(DecimalError, lambda: Decimal(value), "limit")
        else:
            check(str(Decimal(value)) == format(value, "f"), value)
        number = rng.randint(-(10 ** rng.randint(1, 400)), 10**20)
        check(str(Decimal(number)) == str(number), number)
    check(str(Decimal(decimal.Decimal("1.50"))) == "1.50", "trailing zeros")
    for text, want in (("0E+999999999", "0"), ("-0E+999999999", "-0"), ("0E+32768", "0"), ("1E-2", "0.01"),
                       ("0E-32768", "0." + "0" * 32768), ("1E+32767", "1" + "0" * 32767)):
        check(str(Decimal(decimal.Decimal(text))) == want, text)
    for text in ("NaN", "-NaN", "sNaN", "NaN12", "Infinity", "-Infinity"):
        raises(DecimalError, lambda: Decimal(decimal.Decimal(text)), "syntax")
    class Disguised(decimal.Decimal):
        """A decimal.Decimal whose methods speak of another number."""

        def __format__(self, specification):
            return "9"

        def adjusted(self):
            return 0

        def is_zero(self):
            return True

    check(column([Disguised("-1.50")]) == [str(Decimal(Disguised("-1.50")))] == ["-1.50"], "a subclass is its value")
    raises(DecimalError, lambda: Decimal(Disguised("1E+99999999")), "limit")
    start = time.process_time()
    for text in ("1E+999999999", "-1E+999999999", "1E-999999999", "0E-999999999", "0E-32769", "1E+32768"):
        raises(DecimalError, lambda: Decimal(decimal.Decimal(text)), "limit")
    huge = 1 << 332192810  # more than 10^8 digits
    for value in (huge, -huge, type("Whole", (int,), {"bit_length": lambda self: 1})(huge)):
        raises(DecimalError, lambda: Decimal(value), "limit")
        raises(DecimalError, lambda: column([5, value]), "limit", "line 1: limit")
    check(time.process_time() - start < 2, "at once", time.process_time() - start)
    if hasattr(sys, "set_int_max_str_digits"):
        before = sys.get_int_max_str_digits()
        sys.set_int_max_str_digits(640)
        check(str(Decimal(-10**5000)) == "-1" + "0" * 5000, "an int of more digits than Python writes")
        check(column([10**5000, "1"], errors="skip") == ["1" + "0" * 5000, "1"], "such an int in a column")
        sys.set_int_max_str_digits(0)
        check(str(Decimal(1 - 10**32768)) == "-" + "9" * 32768, "the greatest int")
        for value in (10**32768, -(10**32768), (1 << 108853) - 1, 1 << 108853):
            raises(DecimalError, lambda: Decimal(value), "limit")
        sys.set_int_max_str_digits(before)


def test_class():
    rows = [
        (str(Decimal()), "0"), (str(Decimal("1e3")), "1000"), (str(Decimal(-250)), "-250"), (str(Decimal(True)), "1"),
        (str(Decimal(10**30)), "1" + "0" * 30), (str(Decimal(decimal.Decimal("1E+3"))), "1000"),
        (str(Decimal(decimal.Decimal("-0.00"))), "-0.00"), (str(Decimal(Decimal("007.50"))), "007.50"),
        (str(Decimal("1234.565").round(-2)), "1234.56"), (str(Decimal("113").round(0, increment=25)), "125"),
        (str(Decimal("113").round(position=0, mode="ceil", increment=2)), "114"),
        (str(Decimal("42").pad(4, -2)), "0042.00"), (str(Decimal("42").pad(end=-1)), "42.0"),
        (str(Decimal("42.00").pad(4)), "0042.00"), (str(Decimal("42.00").pad(4, 0)), "0042"),
        ([it.default for it in inspect.signature(Decimal.pad).parameters.values()][1:], [..., ...]),
        (str(Decimal("007.50").trim()), "7.5"), (str(Decimal("5").sign("always")), "+5"),
        (Decimal("1234567.5").format("en-IN"), "12,34,567.5"), (Decimal("1234.5").format("de"), "1.234,5"),
        (Decimal("1234.5").format("de", grouping="never"), "1234,5"), (Decimal("1234").format("hi-u-nu-deva"), "१,२३४"),
        (Decimal("1").plural("one: i = 1 and v = 0"), "one"), (Decimal("1.0").plural("one: i = 1 and v = 0"), "other"),
        (Decimal("2").plural("ru"), "few"), (Decimal("22").plural("en:ordinal"), "two"),
        (Decimal("1").plural("ja"), "other"),
        (Decimal("1.0").plural("en_GB.UTF-8:cardinal"), "other"), (Decimal("1").plural("other:"), "other"),
        (Decimal("1234567").format("de", skeleton="currency/INR"), "1.234.567,00\xa0₹"),
        (Decimal("-1234.5").format("es", skeleton="KK"), "-1,2 mil"),
        (Decimal("1500").format("is", skeleton="scientific"), "1,5E3"),
        (Decimal("-1234.5").format("en", skeleton=""), "-1,234.5"),
        (Decimal("1234.5").format("de", skeleton=None), "1.234,5"),
        (Decimal.read("-1.234,50\xa0€", "de", skeleton="currency/EUR"), Decimal("-1234.50")),
        (Decimal.read("12.5%", "en", style="percent", maximum_fraction_digits=1), Decimal("0.125")),
        (Decimal.read("EUR 1.234,5", "de", style="currency", currency="EUR", lenient=True), Decimal("1234.5")),
        (Decimal.read("-1,25\xa0Mio.", "de", notation="compact"), Decimal("-1250000")),
        (Decimal.read("1250K", "en", skeleton="K", lenient=True), Decimal("1250000")),
        (Decimal.read("1.234,50", "de"), Decimal("1234.50")), (Decimal.read("9" * 300, "de"), Decimal("9" * 300)),
        (Decimal("1234.5").format(locale="de"), "1.234,5"), (Decimal("1234.5").format("de-" + "CH"), "1'234.5"),
        (len(str(Decimal("1").pad(end=-32768))), 32770), (len(Decimal("1" * 300).format("de")), 399),
        (pickle.loads(pickle.dumps(Decimal("1.50"))), Decimal("1.50")), (f"{Decimal('1234.565'):,.2f}", "1,234.56"),
        (f"{Decimal('0.00000005000')}", "0.00000005000"), (f"{Decimal('1e3'):g}", "1000"),
        (len({Decimal("1.0"), Decimal("1"), Decimal("1.0")}), 2), (Decimal("1.0") == 1, False),
        (Decimal("1.0") != Decimal("1"), True), (Decimal("1.0").__eq__(1), NotImplemented),
        (Decimal("1.0").__lt__(2), NotImplemented), (Decimal("1.0") <= Decimal("1"), True),
        (Decimal("1.0").compare(Decimal("1")), 0),
    ]
    for got, want in rows:
        check(got == want, got, want)
    for bad, reason in (("1x", "syntax"), ("", "syntax"), ("1e99999", "limit"), ("\udcff", "syntax"), ("１", "syntax")):
        raises(DecimalError, lambda: Decimal(bad), reason)
    for error, call in (
        (TypeError, lambda: Decimal(1.5)), (TypeError, lambda: Decimal(None)), (TypeError, lambda: Decimal("1", "2")),
        (TypeError, lambda: Decimal("1") < 2), (TypeError, lambda: Decimal("1").compare(1)),
        (TypeError, lambda: Decimal(value="1")), (ValueError, lambda: Decimal(decimal.Decimal("NaN"))),
        (ValueError, lambda: Decimal("1").round(0, "up")), (OverflowError, lambda: Decimal("1").shift(40000)),
        (TypeError, lambda: Decimal("1").round()), (TypeError, lambda: Decimal("1").round(0, places=1)),
        (ValueError, lambda: Decimal("1").format("de", "some")), (ValueError, lambda: Decimal("1").sign("plus")),
        (ValueError, lambda: Decimal("1").round(0, "ceil\0junk")), (ValueError, lambda: Decimal("1").sign("always\0")),
        (ValueError, lambda: Decimal("1").format("de", "never\0")), (ValueError, lambda: Decimal("1").sign("\udcff")),
        (TypeError, lambda: Decimal("1").round(0, None)), (TypeError, lambda: Decimal("1").sign(b"always")),
        (TypeError, lambda: Decimal("1").format("de", "auto", style="percent")),
        (TypeError, lambda: Decimal("1").format(style="percent")), (TypeError, lambda: Decimal("1").format("de", None)),
        (TypeError, lambda: Decimal("1").format("de", skeleton=b" " * 44)),
        (TypeError, lambda: Decimal.read("1", "de", skeleton=b" " * 44)),
        (TypeError, lambda: column(["1"], skeleton=b"K")),
    ):
        raises(error, call)
    raises(TypeError, lambda: Decimal(1.5),
           text="a Decimal is made from a str, an int or a decimal.Decimal, not float, whose digits are not those that "
                "were written: write str(x) of a float x")
    raises(TypeError, lambda: Decimal("1").compare(1), text="compare() takes a Decimal, not int: write Decimal(x)")
    raises(DecimalError, lambda: Decimal("1").format("tlh", skeleton="percent"), "unknown locale")
    raises(DecimalError, lambda: Decimal("1").format("tlh", skeleton="percent/w"), "skeleton syntax")
    raises(DecimalError, lambda: Decimal("1").format("en", skeleton="rounding-mode-half-odd"), "skeleton unsupported")
    raises(TypeError, lambda: Decimal("1").format("en", "auto", "percent"))
    raises(DecimalError, lambda: Decimal("1").format("tlh"), "unknown locale")
    raises(DecimalError, lambda: Decimal.read("1", "tlh"), "unknown locale")
    raises(DecimalError, lambda: Decimal.read("\ud800", "de"), "syntax")
    raises(DecimalError, lambda: Decimal.read("1", "de", skeleton="percent/w"), "skeleton syntax")
    raises(DecimalError, lambda: Decimal.read("1", "vec", skeleton="K"), "unreadable format")
    check(str(Decimal.read("mille", "fr", skeleton="KK")) == "1000", "a word without a number")
    check(str(Decimal.read("-mille", "it", skeleton="KK")) == "-1000", "such a word with a sign")
    raises(DecimalError, lambda: Decimal.read("EUR 1", "de", skeleton="currency/EUR"), "syntax")
    raises(DecimalError, lambda: Decimal.read("1250K", "en", skeleton="K"), "syntax")
    raises(TypeError, lambda: Decimal.read("1", "de", skeleton="percent", style="percent"))
    raises(TypeError, lambda: Decimal.read("1"))
    raises(TypeError, lambda: Decimal.read(b"1", "de"), text="a text is a str, not bytes")
    raises(TypeError, lambda: Decimal.read(Decimal("1"), "de"), text="a text is a str, not fixed_decimal.Decimal")
    raises(TypeError, lambda: Decimal.read("1", None), text="a locale is a str, not NoneType")
    raises(DecimalError, lambda: Decimal("1").format(""), "unknown locale")
    raises(DecimalError, lambda: Decimal("10").shift(32767), "overflow")
    raises(DecimalError, lambda: Decimal("1").round(0, increment=3), "unknown call")
    raises(DecimalError, lambda: Decimal("1").plural("n ="), "rules syntax")
    raises(DecimalError, lambda: Decimal("1").plural("xx"), "unknown locale")
    raises(DecimalError, lambda: Decimal("1").plural("tlh:ordinal"), "unknown locale")
    raises(DecimalError, lambda: Decimal("1").plural("en:nominal"), "rules syntax")
    raises(DecimalError, lambda: Decimal("1").plural("en\0"), "rules syntax")
    raises(TypeError, lambda: Decimal("1").format())
    raises(TypeError, lambda: Decimal("1").format("de", locale="de"))
    raises(TypeError, lambda: Decimal("1").format(1))
    raises(DecimalError, lambda: Decimal("1").format("\ud800"), "unknown locale")
    raises(DecimalError, lambda: Decimal("1").plural("\ud800"), "rules syntax")
    check(Decimal("0.5").format(locale="de", style="percent") == "50\xa0%", "a locale by keyword, and options")
    check(Decimal("0.5").format(locale="de", skeleton="percent") == "0,5\xa0%", "a locale by keyword, and a skeleton")
    check(Decimal("0.5").format("de", skeleton=None, style="percent") == "50\xa0%", "no skeleton, and options")


def test_messages():
    """An error says why, of which text, and in a column of which line."""

    class Hostile(str):
        """A str that speaks of another one."""

        def __iter__(self):
            raise KeyError

        def __getitem__(self, at):
            return 5

    one = Decimal("1")
    digits = {"minimum_fraction_digits": 3, "maximum_fraction_digits": 2}
    for call, message in (
        (lambda: Decimal("1x"), "syntax: '1x'"), (lambda: Decimal(""), "syntax: ''"),
        (lambda: Decimal("x" * 40), f"syntax: '{'x' * 40}'"), (lambda: Decimal("x" * 41), f"syntax: '{'x' * 40}..'"),
        (lambda: Decimal("x" + "é" * 40), f"syntax: 'x{'é' * 19}..'"),
        (lambda: Decimal("😀" * 11), f"syntax: '{'😀' * 10}..'"),
        (lambda: Decimal("x" * 39 + "\n"), f"syntax: '{'x' * 39}\\n'"),
        (lambda: Decimal("\ud800" * 14), "syntax: '" + "\\ud800" * 13 + "..'"),
        (lambda: Decimal("1e99999"), "limit: '1e99999'"), (lambda: Decimal(1 << 200000), "limit"),
        (lambda: Decimal(decimal.Decimal("-Infinity")), "syntax: '-Infinity'"),
        (lambda: Decimal(decimal.Decimal("-1E+99999")), "limit: '-1E+99999'"),
        (lambda: Decimal(Hostile("\ud800")), "syntax: '\\ud800'"), (lambda: Decimal(Hostile("x")), "syntax: 'x'"),
        (lambda: column([Hostile("\ud800")]), "line 0: syntax: '\\ud800'"),
        (lambda: Decimal("9" * 50).shift(32767), f"overflow: '{'9' * 40}..'"),
        (lambda: one.format("tlh"), "unknown locale: 'tlh'"), (lambda: one.plural("n ="), "rules syntax: 'n ='"),
        (lambda: one.plural("tlh:ordinal"), "unknown locale: 'tlh:ordinal'"),
        (lambda: one.format("tlh", style="percent"), "unknown locale: 'tlh'"),
        (lambda: one.format("de", skeleton="percent/w"), "skeleton syntax: 'percent/w'"),
        (lambda: Decimal.read("1x", "de"), "syntax: '1x'"), (lambda: Decimal.read("1", "tlh"), "unknown locale: 'tlh'"),
        (lambda: Decimal.read("1", "de", skeleton="rounding-mode-half-odd"),
         "skeleton unsupported: 'rounding-mode-half-odd'"),
        (lambda: Decimal.read("1", "vec", skeleton="K"), "unreadable format"),
        (lambda: one.format("de", numbering_system="roman"), "unknown numbering system"),
        (lambda: one.format("de", **digits),
         "digit options: fraction digits are from 0 to 100, and the minimum is at most the maximum"),
        (lambda: column(["1", "é" * 30]), f"line 1: syntax: '{'é' * 20}..'"),
        (lambda: column(["1"] * 20000 + ["10", "x"], "shift:32767"), "line 20000: overflow: '10'"),
        (lambda: column(["1"], read="tlh", format="xx"), "unknown locale: 'tlh'"),
        (lambda: column(["1"], read="de", format="tlh"), "unknown locale: 'tlh'"),
        (lambda: column(["1"], skeleton="K"), "unknown locale"),
        (lambda: column(["1"], read="de", read_skeleton=".00", format="de", skeleton="K0"), "skeleton syntax: 'K0'"),
        (lambda: column(["1"], read="de", read_skeleton="K0", format="de", skeleton="K"), "skeleton syntax: 'K0'"),
        (lambda: column(["1"], read="vec", read_skeleton="K"), "unreadable format"),
    ):
        raises(DecimalError, call, text=message)
    raises(ValueError, lambda: one.format("de", style="currency"),
           text="style='currency' needs a currency, such as currency='EUR'")
    both = "() takes a skeleton or options, not both: a skeleton has them all"
    raises(TypeError, lambda: one.format("de", skeleton="K", style="percent"), text="format" + both)
    raises(TypeError, lambda: one.format("de", "auto", skeleton="K"), text="format" + both)
    raises(TypeError, lambda: Decimal.read("1", "de", skeleton="K", style="percent"), text="read" + both)
    raises(TypeError, lambda: column(["1"], format="de", skeleton="K", style="percent"), text="column" + both)
    raises(TypeError, lambda: one.format("de", "auto", style="percent"),
           text="format() takes a grouping or options, not both: write use_grouping=")
    for error in (DecimalError("syntax"), DecimalError("syntax", 1), DecimalError("digit options", 5)):
        check(str(pickle.loads(pickle.dumps(error))) == str(error), error)


def test_kept_locale():
    """The kept tag is that of its number, also if the end of a str formats."""

    class Tag(str):
        def __del__(self):
            Decimal("1234.5").format("en")

    wants = {"de": "1.234,5", "en": "1,234.5", "fr": "1\u202f234,5"}
    for first in wants:
        for second in wants:
            tag = Tag(first)
            check(Decimal("1234.5").format(tag) == wants[first], first)
            del tag
            check([Decimal("1234.5").format(second) for _ in range(2)] == [wants[second]] * 2, first, second)


def test_version():
    changes = os.path.join(os.path.dirname(os.path.abspath(__file__)), "../../CHANGELOG.md")
    with open(changes, encoding="utf-8") as file:
        newest = re.search(r"^## \[(\d\S*)\]", file.read(), re.M)[1]
    found = fixed_decimal.__version__, importlib.metadata.version("fixed_decimal")
    check(found == (newest, newest), "the version", found, newest)


def test_stub():
    """The stub has the public names of the module and of its class, with their parameters."""
    with open(os.path.join(os.path.dirname(fixed_decimal.__file__), "__init__.pyi"), encoding="utf-8") as file:
        tree = ast.parse(file.read())
    classes = {node.name: node.body for node in tree.body if isinstance(node, ast.ClassDef)}
    homes = (fixed_decimal, tree.body), (Decimal, classes["Decimal"]), (NumberFormat, classes["NumberFormat"])
    for home, body in homes:
        stubs, keywords = {}, {}
        for node in body:
            if isinstance(node, ast.FunctionDef) and not node.name.startswith("__"):
                found = node.args.posonlyargs + node.args.args + node.args.kwonlyargs
                found += [it for it in (node.args.vararg, node.args.kwarg) if it]
                stubs.setdefault(node.name, set()).update(it.arg for it in found)
                keywords.setdefault(node.name, set()).update(it.arg for it in node.args.kwonlyargs)
        for name, parameters in stubs.items():
            found = inspect.signature(getattr(home, name)).parameters
            check(set(found) == parameters, "the stub of", name, parameters)
            found = {it.name for it in found.values() if it.kind is it.KEYWORD_ONLY}
            check(found == keywords[name], "the keywords of", name, found)
        own = [name for name, value in vars(home).items() if callable(value) and not name.startswith("_")]
        check(set(own) - classes.keys() <= stubs.keys(), "the stub", home, own)
    names = [name for name in vars(fixed_decimal) if name in fixed_decimal.__all__]
    check(set(names) == set(fixed_decimal.__all__), "__all__", names)


def test_examples():
    """Those of the docstrings, and those of docs/PYTHON.md."""
    for module in (fixed_decimal, fixed_decimal._errors, fixed_decimal._options):
        found = doctest.testmod(module, extraglobs={"column": column})
        check(found.failed == 0 and found.attempted > 0, "examples", module, found)
    check(doctest.testmod(fixed_decimal).attempted > 40, "the examples of Decimal and NumberFormat")
    page = os.path.join(os.path.dirname(os.path.abspath(__file__)), "../../docs/PYTHON.md")
    with open(page, encoding="utf-8") as file:
        blocks = re.findall("^```pycon\n(.*?)^```$", file.read(), re.M | re.S)
    found = doctest.DocTestParser().get_doctest("\n".join(blocks), {}, "PYTHON.md", page, 0)
    found = doctest.DocTestRunner().run(found)
    check(found.failed == 0 and found.attempted > 20, "examples of docs/PYTHON.md", found)


def test_options():
    """The rows of `Intl.NumberFormat` in the tests of numbers: options, a number and its text in a locale."""
    rows = []
    for name in ("numbers", "node_numbers", "node_systems", "node_units"):
        home = os.path.dirname(os.path.abspath(__file__))
        with open(os.path.join(home, "../../tests/rows", f"{name}.tsv"), encoding="utf-8") as file:
            rows += [row for line in file if len(row := line.rstrip("\n").split("\t")) == 4
                     and not re.search(r"[*]|\b(?:check|scale|integer|fraction)=", line)]
    check(len(rows) > 7000, len(rows))
    plain = 0
    for locale, words, number, text in rows:
        options = {}
        for word in words.split():
            name, value = word.split("=")
            value = int(value) if value.isdigit() else {"true": True, "false": False}.get(value, value)
            options[re.sub("[A-Z]", lambda capital: "_" + capital[0].lower(), name)] = value
        found = Decimal(number).format(locale, **{"style": "decimal", **options})
        check(found == text, locale, words, number, found, text)
        made = NumberFormat(locale, **options)
        parts = "".join(part["value"] for part in made.format_to_parts(number))
        check(made.format(number) == parts == text, locale, words, number, made, parts, text)
        check(NumberFormat(**made.resolved_options()).format(number) == text, made, made.resolved_options(), number)
        # Without rounding it is the same if nothing is rounded, and no zeros are dropped.
        has_own_digits = re.fullmatch(r"-?(0|[1-9]\d*)(\.\d{0,2}[1-9])?", number)
        if has_own_digits and options.keys() <= {"use_grouping", "sign_display"}:
            plain += 1
            check(Decimal(number).format(locale, **options) == text, locale, words, number, text)
            check(column([number], format=locale, **options) == [text], locale, words, number, text)
    check(plain > 300, "rows that are not rounded", plain)
    money = {"style": "currency", "currency": "EUR"}
    check(Decimal("1234.5").format("de", **money) == "1.234,50\xa0€", "an amount")
    check(column(["1234.5"], format="de", **money) == ["1.234,50\xa0€"], "a column of amounts")
    check(number_skeleton(rounding_mode="half-even") == number_skeleton(rounding_mode="halfEven"), "words with hyphens")
    check(number_skeleton(rounding_mode="halfEven", **money) == "currency/EUR", "a skeleton")
    skeleton = number_skeleton(notation="compact", sign_display="negative")
    check(skeleton == "compact-short rounding-mode-half-up sign-negative", "the words of ICU's normal form")
    check(Decimal.read("1.234,50\xa0€", "de", **money) == Decimal("1234.50"), "an amount is read")
    check(Decimal.read("EUR 5", "de", lenient=True, **money) == Decimal("5"), "an amount is read leniently")
    unsigned = {"style": "currency", "currency": "USD", "currency_sign": "accounting", "sign_display": "never"}
    check(Decimal("-5").format("en", **unsigned) == "$5.00", "an amount without a sign")
    raises(DecimalError, lambda: number_skeleton(**unsigned), "no skeleton")
    check(Decimal("1234.5").format("en", numbering_system="arab") == "١٬٢٣٤٫٥", "a numbering system")
    raises(DecimalError, lambda: Decimal("1").format("en", numbering_system="roman"), "unknown numbering system")
    for wrong in ({"style": "units"}, {"style": "currency"}, {"compact_display": "wide"}, {"currency": "EURO"},
                  {"numbering_system": "arab\n"}, {"style": "percent\0"}, {"style": "\ud800"},
                  {"minimum_fraction_digits": -1},
                  {"maximum_significant_digits": 22}, {"minimum_fraction_digits": 65535},
                  {"minimum_fraction_digits": 3, "maximum_fraction_digits": 2},
                  {"rounding_increment": 5, "maximum_fraction_digits": 2}):
        raises(ValueError, lambda: Decimal("1").format("de", **wrong))
    for wrong in ({"scale": 2}, {"style": "percent", "skeleton": "K"}, {"style": None}, {"style": []},
                  {"currency": b"EUR"}, {"maximum_fraction_digits": "2"}):
        raises(TypeError, lambda: Decimal("1").format("de", **wrong))


EUROS = {"style": "currency", "currency": "EUR"}
# The parts of `formatToParts` in node 20 (CLDR 48), as types and texts.
PARTS = [
    ("de", EUROS, "-1234567.5", "minusSign - integer 1 group . integer 234 group . integer 567 decimal , fraction 50 "
     "literal \xa0 currency €"),
    ("en", {"style": "currency", "currency": "USD", "currency_sign": "accounting"}, "-5",
     "literal ( currency $ integer 5 decimal . fraction 00 literal )"),
    ("fr", {"style": "percent", "maximum_fraction_digits": 1}, "0.125",
     "integer 12 decimal , fraction 5 literal \xa0 percentSign %"),
    ("en", {"notation": "scientific"}, "0.00012345",
     "integer 1 decimal . fraction 235 exponentSeparator E exponentMinusSign - exponentInteger 4"),
    ("en", {"sign_display": "always"}, "5", "plusSign + integer 5"),
    ("hi-u-nu-deva", {}, "1234567.891", "integer १२ group , integer ३४ group , integer ५६७ decimal . fraction ८९१"),
    ("en", {"notation": "compact"}, "1234", "integer 1 decimal . fraction 2 compact K"),
]
# `resolvedOptions` of node 20, with Python's words; the locale is the one that is passed.
RESOLVED = [
    ("de-CH", {"style": "currency", "currency": "CHF"},
     {"locale": "de-CH", "numbering_system": "latn", "style": "currency", "currency": "CHF",
      "currency_display": "symbol", "currency_sign": "standard", "minimum_integer_digits": 1,
      "minimum_fraction_digits": 2, "maximum_fraction_digits": 2, "use_grouping": "auto", "notation": "standard",
      "sign_display": "auto", "rounding_increment": 1, "rounding_mode": "half-expand", "rounding_priority": "auto",
      "trailing_zero_display": "auto"}),
    ("en", {"notation": "compact"},
     {"locale": "en", "numbering_system": "latn", "style": "decimal", "minimum_integer_digits": 1,
      "minimum_fraction_digits": 0, "maximum_fraction_digits": 0, "minimum_significant_digits": 1,
      "maximum_significant_digits": 2, "use_grouping": "min2", "notation": "compact", "compact_display": "short",
      "sign_display": "auto", "rounding_increment": 1, "rounding_mode": "half-expand",
      "rounding_priority": "more-precision", "trailing_zero_display": "auto"}),
    ("en", {"style": "percent", "maximum_significant_digits": 3, "rounding_priority": "lessPrecision"},
     {"locale": "en", "numbering_system": "latn", "style": "percent", "minimum_integer_digits": 1,
      "minimum_fraction_digits": 0, "maximum_fraction_digits": 0, "minimum_significant_digits": 1,
      "maximum_significant_digits": 3, "use_grouping": "auto", "notation": "standard", "sign_display": "auto",
      "rounding_increment": 1, "rounding_mode": "half-expand", "rounding_priority": "less-precision",
      "trailing_zero_display": "auto"}),
    ("ar-EG", {"rounding_increment": 50, "minimum_fraction_digits": 2, "maximum_fraction_digits": 2,
               "rounding_mode": "floor", "trailing_zero_display": "stripIfInteger", "use_grouping": False,
               "sign_display": "negative"},
     {"locale": "ar-EG", "numbering_system": "arab", "style": "decimal", "minimum_integer_digits": 1,
      "minimum_fraction_digits": 2, "maximum_fraction_digits": 2, "use_grouping": False, "notation": "standard",
      "sign_display": "negative", "rounding_increment": 50, "rounding_mode": "floor", "rounding_priority": "auto",
      "trailing_zero_display": "strip-if-integer"}),
    ("en", {"maximum_significant_digits": 4, "notation": "engineering"},
     {"locale": "en", "numbering_system": "latn", "style": "decimal", "minimum_integer_digits": 1,
      "minimum_significant_digits": 1, "maximum_significant_digits": 4, "use_grouping": "auto",
      "notation": "engineering", "sign_display": "auto", "rounding_increment": 1, "rounding_mode": "half-expand",
      "rounding_priority": "auto", "trailing_zero_display": "auto"}),
]


# `NumberFormat("de", currency="EUR", style="currency")` in the protocols 2 and 4.
PICKLES = [
    "80026366756e63746f6f6c730a7061727469616c0a7100635f5f6275696c74696e5f5f0a676574617474720a710163666978"
    "65645f646563696d616c0a4e756d626572466f726d61740a710258070000005f5f6e65775f5f710386710452710585710652"
    "710728680568025802000000646571088671097d710a28580800000063757272656e6379710b5803000000455552710c5805"
    "0000007374796c65710d680b754e74710e622952710f2e",
    "8004954a000000000000008c0d66697865645f646563696d616c948c0c4e756d626572466f726d61749493948c0264659485"
    "947d94288c0863757272656e6379948c03455552948c057374796c659468067592942e",
]


def test_number_format():
    """A format is made once, by a locale and a skeleton or options, and takes each kind of number."""
    euros = NumberFormat("de", **EUROS)
    for number, want in (
        ("1234.5", "1.234,50"), ("1e3", "1.000,00"), (Decimal("-0.005"), "-0,01"), (5, "5,00"), (True, "1,00"),
        (-(2**63), "-9.223.372.036.854.775.808,00"), (10**20, "100" + ".000" * 6 + ",00"),
        (decimal.Decimal("1E+3"), "1.000,00"), ("7" * 300, ".".join(["777"] * 100) + ",00"),
    ):
        check(euros.format(number) == want + "\xa0€", number, euros.format(number))
        check("".join(part["value"] for part in euros.format_to_parts(number)) == euros.format(number), "parts", number)
        check(euros.read(euros.format(number)).format("de", **EUROS) == euros.format(number), "read", number)
    check(NumberFormat("es", skeleton="KK").format("-1234.5") == "-1,2 mil", "a skeleton")
    check(NumberFormat("en", skeleton="").format("0.1234565") == "0.123456", "the empty skeleton is ICU's default")
    check(NumberFormat("en").format("0.12345") == "0.123", "no options")
    check(NumberFormat("en", skeleton=None).format("0.12345") == "0.123", "no skeleton")
    check(NumberFormat(locale="de_CH.UTF-8").format(1234) == "1'234", "a locale by its name")
    check(euros.read(text="EUR 1.234,5", lenient=True) == euros.read("EUR 1.234,5", 1) == Decimal("1234.5"), "lenient")
    for locale, options, number, want in PARTS:
        words = iter(want.split(" "))
        want = [{"type": name, "value": next(words)} for name in words]
        found = NumberFormat(locale, **options).format_to_parts(number)
        check(found == want, locale, options, number, found, want)
    for locale, options, want in RESOLVED:
        found = NumberFormat(locale, **options).resolved_options()
        check(found == want, locale, options, found, want)
        check(NumberFormat(**want).resolved_options() == want, "the resolved options as options", want)
    more = NumberFormat("en", skeleton="permille scale/100 sign-never integer-width/##0").resolved_options()
    found = [more.get(name) for name in ("style", "scale", "sign_display", "maximum_integer_digits")]
    check(found == ["permille", 2, "never", 3], "more options", more)
    thousands = NumberFormat("hi", skeleton="group-thousands integer-width/##0")
    check(thousands.resolved_options().get("group_sizes") == "thousands", "groups of three")
    hidden = NumberFormat("en", skeleton="currency/USD integer-width/*")
    parts = [(part["type"], part["value"]) for part in hidden.format_to_parts("-0.5")]
    want = [("minusSign", "-"), ("currency", "$"), ("decimal", "."), ("fraction", "50")]
    check(hidden.format("-0.5") == "-$.50" and parts == want, "no integer digit", parts)
    check(hidden.format_range("0.25", "1") == "$.25 \u2013 $1.00", "a range", hidden.format_range("0.25", "1"))
    raises(DecimalError, lambda: hidden.read("$.50"), "unreadable format")
    more = NumberFormat("en", skeleton="@@+").resolved_options()
    check(more.get("maximum_significant_digits", 0) is None, "no maximum", more)


def test_characters():
    """The text of a format is a str of characters up to U+007F, U+00FF and U+FFFF and beyond, short and long."""
    for locale, want in (("en", "13%"), ("de", "13\xa0%"), ("ar-EG", "١٣٪\u061c"), ("ccp", "𑄷𑄹%")):
        percent = NumberFormat(locale, style="percent")
        check(percent.format("0.125") == want, locale, percent.format("0.125"))
        many = percent.format("7" * 40)
        check(many == many.encode().decode() and percent.read(many) == Decimal("7" * 40 + ".00"), locale, many)


def test_errors_of_number_formats():
    euros = NumberFormat("de", **EUROS)
    for call, message in (
        (lambda: euros.format("1x"), "syntax: '1x'"), (lambda: euros.format("\ud800"), "syntax: '\\ud800'"),
        (lambda: euros.format(decimal.Decimal("NaN")), "syntax: 'NaN'"), (lambda: euros.format(1 << 200000), "limit"),
        (lambda: euros.format_to_parts("1e99999"), "limit: '1e99999'"),
        (lambda: NumberFormat("de", skeleton="scale/100").format("1e32767"), "overflow: '1e32767'"),
        (lambda: NumberFormat("de", skeleton="scale/100").format_to_parts("1e32767"), "overflow: '1e32767'"),
        (lambda: euros.read("5 USD"), "syntax: '5 USD'"), (lambda: euros.read("\ud800"), "syntax: '\\ud800'"),
        (lambda: NumberFormat("vec", notation="compact").read("1"), "unreadable format"),
        (lambda: NumberFormat("tlh"), "unknown locale: 'tlh'"), (lambda: NumberFormat(""), "unknown locale: ''"),
        (lambda: NumberFormat("\udcff"), "unknown locale: '\\udcff'"),
        (lambda: NumberFormat("tlh", skeleton="percent/w"), "skeleton syntax: 'percent/w'"),
        (lambda: NumberFormat("de", skeleton="\ud800"), "skeleton syntax: '\\ud800'"),
        (lambda: NumberFormat("de", skeleton="rounding-mode-half-odd"),
         "skeleton unsupported: 'rounding-mode-half-odd'"),
        (lambda: NumberFormat("de", numbering_system="roman"), "unknown numbering system"),
        (lambda: NumberFormat("de", minimum_integer_digits=22), "digit options: integer digits are from 1 to 21"),
    ):
        raises(DecimalError, call, text=message)
    both = "NumberFormat() takes a skeleton or options, not both: a skeleton has them all"
    for call, message in (
        (lambda: NumberFormat("de", skeleton="K", style="percent"), both),
        (lambda: NumberFormat("de", skeleton="K", currency=None), both),
        (lambda: NumberFormat(), "NumberFormat() takes a locale"),
        (lambda: NumberFormat(skeleton="K"), "NumberFormat() takes a locale"),
        (lambda: NumberFormat("de", "K"), "NumberFormat expected at most 1 argument, got 2"),
        (lambda: NumberFormat("de", locale="de"), "no such option: locale"),
        (lambda: NumberFormat(b"de"), "a locale is a str, not bytes"),
        (lambda: NumberFormat("de", skeleton=5), "a skeleton is a str, not int"),
        (lambda: NumberFormat("de", scale=2), "no such option: scale"),
        (lambda: NumberFormat("de", unit=5), "unit is a str, not int"),
        (lambda: NumberFormat("de", style=5), "style is a str, not int"),
        (lambda: euros.format(1.5), "a number is a str, an int or a Decimal, not float, whose digits are not those "
                                    "that were written: write str(x) of a float x"),
        (lambda: euros.format_to_parts(None), "a number is a str, an int or a Decimal, not NoneType"),
        (lambda: euros.read(Decimal(1)), "a text is a str, not fixed_decimal.Decimal"),
        (lambda: euros.read(), "read() takes a text"),
        (lambda: euros.read("1", strict=True), "read() has no such argument: strict"),
        (lambda: column(["1"], format=euros, skeleton="K"),
         "column() takes a NumberFormat, or a skeleton or options, not both: a NumberFormat has them"),
        (lambda: column(["1"], format=euros, style="percent"),
         "column() takes a NumberFormat, or a skeleton or options, not both: a NumberFormat has them"),
    ):
        raises(TypeError, call, text=message)
    for wrong in ({"style": "unit"}, {"style": "permille"}, {"currency_display": "hidden"}, {"style": "currency"}):
        raises(ValueError, lambda: NumberFormat("de", **wrong))


# Texts by the parts of formatRangeToParts in node 20, and their sources.
RANGES = [
    ("de", EUROS, "1", "2.5", [
        ("startRange", "integer|1|decimal|,|fraction|00"),
        ("shared", "literal|–"),
        ("endRange", "integer|2|decimal|,|fraction|50"),
        ("shared", "literal|\xa0|currency|€"),
    ]),
    ("en", {"style": "currency", "currency": "USD"}, "1", "1.001", [
        ("shared", "approximatelySign|~|currency|$|integer|1|decimal|.|fraction|00"),
    ]),
    ("he", {"style": "currency", "currency": "ILS"}, "-5", "3", [
        ("startRange", "literal|\u200f\u200e|minusSign|-"
                       "|integer|5|decimal|.|fraction|00|literal|\xa0\u200f|currency|₪"),
        ("shared", "literal| – \u200f"),
        ("endRange", "integer|3|decimal|.|fraction|00|literal|\xa0\u200f|currency|₪"),
    ]),
    ("ru", {"style": "unit", "unit": "day", "unit_display": "long"}, "5", "1", [
        ("startRange", "integer|5"),
        ("shared", "literal|–"),
        ("endRange", "integer|1"),
        ("shared", "literal| |unit|день"),
    ]),
    ("en", {"notation": "scientific"}, "1000", "2000000", [
        ("startRange", "integer|1|exponentSeparator|E|exponentInteger|3"),
        ("shared", "literal| – "),
        ("endRange", "integer|2|exponentSeparator|E|exponentInteger|6"),
    ]),
    ("rm", {"style": "currency", "currency": "INR", "currency_sign": "accounting"}, "-1", "1", [
        ("startRange", "literal|(|currency|₹|integer|1|decimal|,|fraction|00"),
        ("shared", "literal|) – "),
        ("endRange", "currency|₹|integer|1|decimal|,|fraction|00"),
    ]),
]


def test_ranges():
    """Ranges, their parts and their plural categories, beside node's."""
    for locale, options, start, end, sources in RANGES:
        want = []
        for source, words in sources:
            words = iter(words.split("|"))
            want += [{"type": name, "value": next(words), "source": source} for name in words]
        found = NumberFormat(locale, **options).format_range_to_parts(start, end)
        check(found == want, locale, options, start, end, found, want)
    rows = os.path.join(os.path.dirname(os.path.abspath(__file__)), "../../tests/rows/node_ranges.tsv")
    with open(rows, encoding="utf-8") as file:
        rows = [line.rstrip("\n").split("\t") for line in file if not line.startswith("# ")]
    check(len(rows) > 1000, len(rows))
    for locale, options, start, end, text in rows:
        options = {re.sub("[A-Z]", lambda capital: "_" + capital[0].lower(), name): value
                   for name, value in json.loads(options).items()}
        made = NumberFormat(locale, **options)
        check(made.format_range(start, end) == text, locale, options, start, end, made.format_range(start, end), text)
        parts = made.format_range_to_parts(start, end)
        check("".join(part["value"] for part in parts) == text, locale, options, start, end, parts, text)
    euros = NumberFormat("de", **EUROS)
    for start, end in ((3, Decimal("5")), (decimal.Decimal("3.00"), "5.00"), ("3", 5)):
        check(euros.format_range(start, end) == "3,00–5,00\xa0€", start, end)
    long = "7" * 300
    want = euros.format(long)[:-2] + "–" + euros.format("8" * 300)
    check(euros.format_range(long, "8" * 300) == want, "long numbers")
    check(len(euros.format_range_to_parts(long, "8" * 300)) == 2 * 201 + 3, "many parts")
    for locale, start, end, want in (
        ("ru", "one", "many", "many"), ("ru-RU", "many", "one", "one"), ("en", "one", "other", "other"),
        ("lv", "other", "zero", "other"), ("ar_EG.UTF-8", "zero", "one", "zero"),
    ):
        check(plural_range(locale, start, end) == want, locale, start, end, plural_range(locale, start, end))
    scaled = NumberFormat("de", skeleton="scale/100")
    for call, message in (
        (lambda: euros.format_range("x", "y"), "syntax: 'x'"), (lambda: euros.format_range(1, "y"), "syntax: 'y'"),
        (lambda: euros.format_range_to_parts("1e99999", 1), "limit: '1e99999'"),
        (lambda: scaled.format_range("1e32767", 1), "overflow: '1e32767'"),
        (lambda: scaled.format_range_to_parts(1, "1e32767"), "overflow: '1e32767'"),
        (lambda: euros.format_range(1, "\ud800"), "syntax: '\\ud800'"),
        (lambda: plural_range("tlh", "one", "one"), "unknown locale: 'tlh'"),
        (lambda: plural_range("\udcff", "one", "one"), "unknown locale: '\\udcff'"),
    ):
        raises(DecimalError, call, text=message)
    for call, message in (
        (lambda: euros.format_range(1), "format_range() takes a start and an end"),
        (lambda: euros.format_range_to_parts(1, 2, 3), "format_range_to_parts() takes a start and an end"),
        (lambda: euros.format_range(1, None), "a number is a str, an int or a Decimal, not NoneType"),
        (lambda: plural_range("ru", "one", 5), "plural category is a str, not int"),
    ):
        raises(TypeError, call, text=message)
    raises(ValueError, lambda: plural_range("ru", "one", "two or more"))


# Options that `Intl.NumberFormat` of node 20 rejects, with Python's words; `{"unit": "meter"}` it takes.
WRONG_UNITS = [
    "foo", "Meter", "meters", "m", "meter ", "furlong", "tonne", "square-meter", "kilowatt-hour", "permille", "knot",
    "meter-per-foo", "foo-per-meter", "meter-per-", "-per-meter", "per-meter", "meter-per-second-per-second",
    "meter-per-square-second", "liter-per-100-kilometer", "meter-PER-second", "meter per second", "meter/second",
    "day-person", "foot-and-inch", "length-meter", "unit/meter", "m\xe9ter", "meter\0", "meter\n",
]
WRONG_UNIT_OPTIONS = [
    {"style": "unit"}, {"style": "unit", "unit": ""}, {"style": "unit", "unit": "meter", "unit_display": "full"},
    {"style": "unit", "unit": "meter", "unit_display": ""}, {"unit_display": "foo"},
    {"style": "currency", "currency": "USD", "currency_display": "names"},
    {"style": "currency", "currency_display": "name"},
    {"style": "currency", "currency": "US$", "currency_display": "name"},
    {"style": "unit", "unit": "meter", "currency": "US"}, {"style": "unit", "unit": "meter", "currency_sign": "foo"},
]
# Options that it takes, with the text of -5 and of the range from 1 to 2 in `en`.
RIGHT_UNIT_OPTIONS = [
    ({"style": "unit", "unit": "meter-per-meter"}, "-5 m/m", "1–2 m/m"),
    ({"style": "unit", "unit": "percent-per-percent"}, "-5%", "1–2%/%"),
    ({"style": "unit", "unit": "mile-scandinavian-per-fluid-ounce"}, "-5 smi/fl oz", "1–2 smi/fl oz"),
    ({"style": "unit", "unit": "meter", "currency_sign": "accounting"}, "-5 m", "1–2 m"),
    ({"style": "currency", "currency": "ZZZ", "currency_display": "name"}, "-5.00 ZZZ", "1.00–2.00 ZZZ"),
]


def test_units():
    """Units and names of currencies beside the rows of `test_options`: options that are rejected, and resolved ones."""
    speed = {"style": "unit", "unit": "kilometer-per-hour", "unit_display": "long"}
    made = NumberFormat("en", **speed)
    check(made.format(5) == "5 kilometers per hour", "a unit")
    parts = NumberFormat("en", style="unit", unit="celsius").format_to_parts(5)
    check(parts == [{"type": "integer", "value": "5"}, {"type": "unit", "value": "°C"}], "parts", parts)
    check(made.resolved_options()["unit"] == "kilometer-per-hour", "the unit", made.resolved_options())
    check(eval(repr(NumberFormat("en", **speed))) == NumberFormat("en", **speed), "repr")
    check(column(["5"], format="en", **speed) == ["5 kilometers per hour"], "a column")
    furlong = NumberFormat("en", skeleton="unit/furlong-per-day unit-width-full-name decimal-always .")
    found = [furlong.resolved_options().get(name) for name in ("unit", "unit_display", "decimal_separator")]
    check(found == ["furlong-per-day", "long", "always"], "resolved options of a skeleton", found)
    share = NumberFormat("en", skeleton="unit/percent-per-hour")
    found = share.format(1), share.resolved_options().get("per_display")
    check(found == ("1%/h", "always"), "both units by a skeleton", found)
    share = NumberFormat("en", style="unit", unit="percent-per-hour")
    found = share.format(1), share.resolved_options().get("per_display")
    check(found == ("1%", None), "percent alone by options", found)
    check(NumberFormat("de", unit="meter").format(5) == "5", "a unit of another style")
    for unit in WRONG_UNITS:
        for options in ({"style": "unit", "unit": unit}, {"unit": unit}, {"style": "percent", "unit": unit}):
            raises(DecimalError, lambda: NumberFormat("en", **options), "unknown unit")
    raises(DecimalError, lambda: NumberFormat("en", unit="\ud800"), "unknown unit")
    for options in WRONG_UNIT_OPTIONS:
        raises(ValueError, lambda: NumberFormat("en", **options))
    raises(TypeError, lambda: NumberFormat("en", style="unit", unit=None))
    for options, number, numbers in RIGHT_UNIT_OPTIONS:
        made = NumberFormat("en", **options)
        found = made.format(-5), made.format_range(1, 2)
        check(found == (number, numbers), options, found, number, numbers)
    check(NumberFormat("en", **speed).read("5 kilometers per hour") == Decimal("5"), "a unit is read")
    days = NumberFormat("ar", style="unit", unit="day", unit_display="long")
    raises(DecimalError, lambda: days.read("5"), "unreadable format")


def test_values_of_number_formats():
    """Two are equal if their options are. They do not change, and are pickled by their options' names."""
    euros, plain = NumberFormat("de", **EUROS), NumberFormat("de")
    check(euros == NumberFormat("de", currency="EUR", style="currency", rounding_mode="halfExpand"), "the defaults")
    check(plain == NumberFormat("de", use_grouping="auto", minimum_fraction_digits=None), "the defaults")
    check(NumberFormat("de", use_grouping=True) == NumberFormat("de", use_grouping="always"), "one meaning")
    different = [euros, plain, NumberFormat("en"), NumberFormat("de", skeleton=""), NumberFormat("de", skeleton="K"),
                 NumberFormat("de", notation="compact"), NumberFormat("de", minimum_fraction_digits=0),
                 NumberFormat("de", use_grouping=False), NumberFormat("de", minimum_integer_digits=1)]
    for at, one in enumerate(different):
        check([one == other for other in different] == [at == i for i in range(len(different))], one)
        check([one != other for other in different] == [at != i for i in range(len(different))], one)
    check(len(set(different + [NumberFormat("de", **EUROS)])) == len(different), "hashes")
    check(euros != "de" and euros.__eq__("de") is NotImplemented and euros.__lt__(euros) is NotImplemented, "others")
    check(repr(euros) == "NumberFormat('de', currency='EUR', style='currency')", repr(euros))
    for one in different:
        check(eval(repr(one)) == one, "repr", one)
        copies = [pickle.loads(pickle.dumps(one, protocol)) for protocol in range(pickle.HIGHEST_PROTOCOL + 1)]
        for made in (*copies, copy.copy(one), copy.deepcopy(one)):
            check(made == one and made.format("1234.5678") == one.format("1234.5678"), "a copy", one)
    # A pickle has names, and no bytes of a struct: each version reads these, which the first one has written.
    for text in PICKLES:
        check(pickle.loads(bytes.fromhex(text)) == euros, "an older pickle", text)
    bytes_of_pickle = pickle.dumps(euros)
    check(b"EUR" in bytes_of_pickle and len(bytes_of_pickle) < 150, "the bytes of a pickle", bytes_of_pickle)
    for change in (lambda: setattr(euros, "locale", "en"), lambda: setattr(euros, "format", None),
                   lambda: delattr(euros, "format"), lambda: setattr(NumberFormat, "format", None),
                   lambda: type("Other", (NumberFormat,), {}), lambda: object.__new__(NumberFormat),
                   lambda: NumberFormat.__new__(NumberFormat), lambda: euros < euros):
        raises((AttributeError, TypeError), change)
    euros.__init__("en")
    check(euros.format(5) == "5,00\xa0€", "it is as it was")


def test_kept_formats():
    """`Decimal.format` keeps formats by arguments that are equal only to themselves, also if the end of one formats."""

    class Word(str):
        """A str that is equal to each other one, and formats at its end."""

        def __eq__(self, other):
            return True

        def __hash__(self):
            return 1

        def __del__(self):
            Decimal("1").format("fr", style="percent")

    class Two(int):
        def __eq__(self, other):
            return True

        def __hash__(self):
            return 2

    one = Decimal("0.5")
    for _ in range(3):
        for call, want in (
            (lambda: one.format("en", style=Word("percent")), "50%"),
            (lambda: one.format("en", style=Word("decimal")), "0.5"),
            (lambda: one.format(Word("de"), style="percent"), "50\xa0%"),
            (lambda: one.format(Word("en"), style="percent"), "50%"),
            (lambda: one.format("en", skeleton=Word("percent")), "0.5%"),
            (lambda: one.format("en", skeleton=Word(".00")), "0.50"),
            (lambda: one.format("en", minimum_fraction_digits=Two(2)), "0.50"),
            (lambda: one.format("en", minimum_fraction_digits=Two(1)), "0.5"),
            (lambda: one.format("en", use_grouping=Word("min2")), "0.5"),
            (lambda: one.format("en", minimum_fraction_digits=True), "0.5"),
            (lambda: one.format("en", minimum_fraction_digits=1), "0.5"),
            (lambda: one.format("en", use_grouping=True, style="decimal"), "0.5"),
            (lambda: column(["0.5"], format=Word("de"), style=Word("percent")), ["50\xa0%"]),
            (lambda: column(["0.5"], format=Word("en"), style=Word("decimal")), ["0.5"]),
        ):
            check(call() == want, "kept", want, call())
        raises(TypeError, lambda: one.format("en", use_grouping=1, style="decimal"))
    for count in range(1, 200):
        least = count % 90 + 1
        found = one.format("en", minimum_fraction_digits=least, maximum_fraction_digits=91)
        check(found == "0.5" + "0" * (least - 1), "more formats than are kept", least)


def test_threads():
    """One format in eight threads, and eight formats in turn in each."""
    formats = [NumberFormat(locale, **EUROS) for locale in ("de", "en", "fr", "hi", "ja", "ar-EG", "de-CH", "es")]
    wants = {(i, n): formats[i].format(n) for i in range(8) for n in range(200)}
    wrong = []

    def work():
        for n in range(200):
            for i, one in enumerate(formats):
                found = one.format(n), Decimal(n).format(one.resolved_options()["locale"], **EUROS)
                if found != (wants[i, n],) * 2:
                    wrong.append((i, n, found))
        if column(range(40000), format=formats[1]) != [f"€{n:,}.00" for n in range(40000)]:
            wrong.append("a column")

    before = sys.getswitchinterval()
    sys.setswitchinterval(1e-5)
    threads = [threading.Thread(target=work) for _ in range(8)]
    for thread in threads:
        thread.start()
    for thread in threads:
        thread.join()
    sys.setswitchinterval(before)
    check(not wrong, "threads", *wrong[:3])


def test_leaks():
    """What a call takes is released, also after an error: many calls take no more memory than a few."""
    euros, one = NumberFormat("de", **EUROS), Decimal("1234.5")

    def fails(call):
        try:
            call()
        except (ValueError, TypeError):
            return
        check(False, "no error")

    calls = [
        lambda: NumberFormat("de", **EUROS), lambda: NumberFormat("de", skeleton="KK"), lambda: euros.format(one),
        lambda: euros.format("7" * 300), lambda: euros.format(12345), lambda: euros.format(decimal.Decimal("1.5")),
        lambda: euros.format_to_parts(one), lambda: euros.format_to_parts("7" * 300), lambda: euros.read("5,00\xa0€"),
        lambda: euros.format_range(one, 1500), lambda: euros.format_range_to_parts("7" * 300, 12345),
        lambda: fails(lambda: euros.format_range(12345, "x")), lambda: fails(lambda: euros.format_range(1, 1.5)),
        lambda: plural_range("ru", "one", "many"), lambda: fails(lambda: plural_range("tlh", "one", "one")),
        lambda: euros.resolved_options(), lambda: repr(euros), lambda: hash(euros), lambda: euros == NumberFormat("en"),
        lambda: pickle.dumps(euros), lambda: one.format("de", **EUROS), lambda: one.format("de", skeleton="percent"),
        lambda: one.format("de", use_grouping=False), lambda: Decimal.read("5,00\xa0€", "de", **EUROS),
        lambda: column(["5", "x"], "shift:1", format=euros, errors="skip"), lambda: fails(lambda: euros.format("x")),
        lambda: fails(lambda: euros.format(1.5)), lambda: fails(lambda: NumberFormat("tlh")),
        lambda: fails(lambda: NumberFormat("de", skeleton="K0")), lambda: fails(lambda: NumberFormat("de", style="x")),
        lambda: fails(lambda: NumberFormat("de", skeleton="K", style="x")), lambda: fails(lambda: euros.read("x")),
        lambda: fails(lambda: column(["x"], format=euros)),
        lambda: fails(lambda: column(["1"], format=euros, style="x")),
        lambda: fails(lambda: one.format("de", minimum_integer_digits=30)),
        lambda: NumberFormat("de", style="unit", unit="gram-per-second").resolved_options(),
        lambda: fails(lambda: one.format("de", unit="foo")),
    ]
    tracemalloc.start()
    for call in calls:
        sizes = []
        for _ in range(4):
            for _ in range(150):
                call()
            sizes.append(tracemalloc.get_traced_memory()[0])
        check(sizes[3] - sizes[1] < 8000, "a leak", inspect.getsource(call), sizes)
    tracemalloc.stop()


def test_plain_options():
    """Options that only say the groups and the sign round nothing, and drop no zeros."""
    for number, options, want in (
        ("1234.56780", {"use_grouping": False}, "1234,56780"), ("1234.56780", {"use_grouping": True}, "1.234,56780"),
        ("+5", {"use_grouping": "min2"}, "+5"), ("0.00001234", {"sign_display": "always"}, "+0,00001234"),
        ("-0.00", {"sign_display": "never"}, "0,00"), ("0.00", {"sign_display": "exceptZero"}, "0,00"),
        ("-1234.50", {"use_grouping": False, "sign_display": "never"}, "1234,50"),
        ("007.10", {"use_grouping": False}, "007,10"),
        ("1234.56780", {"use_grouping": False, "style": "decimal"}, "1234,568"),
        ("1234.56780", {"use_grouping": False, "maximum_fraction_digits": 1}, "1234,6"),
    ):
        found = Decimal(number).format("de", **options), column([number], format="de", **options)
        check(found == (want, [want]), number, options, want, found)
    check(column(["5"], "shift:3", format="de", sign_display="always") == ["+5.000"], "calls, and a sign")
    for wrong in ({"use_grouping": 1}, {"use_grouping": 0}, {"use_grouping": 1.0}, {"use_grouping": None},
                  {"sign_display": True}):
        raises(TypeError, lambda: Decimal("1").format("de", **wrong))
        raises(TypeError, lambda: column(["1"], format="de", **wrong))
    raises(ValueError, lambda: Decimal("1").format("de", sign_display="plus"))
    raises(DecimalError, lambda: column(["1"], use_grouping=False), "unknown locale")
    raises(TypeError, lambda: column(["1"], format="de", skeleton="K", use_grouping=False))


def test_types_of_options():
    """An option has a type: what is equal to a number of digits is none, whether that is used before or after."""
    for style in ("percent", "decimal"):
        for count in (2, 3):
            for wrong in (float(count), complex(count), decimal.Decimal(count), str(count)):
                options = {"style": style, "minimum_fraction_digits": wrong}
                raises(TypeError, lambda: Decimal("5").format("de", **options))
                raises(TypeError, lambda: number_skeleton(**options))
                raises(TypeError, lambda: Decimal.read("5", "de", **options))
                right = Decimal("5").format("de", style=style, minimum_fraction_digits=count)
                check(right == ("500," + "0" * count + "\xa0%" if style == "percent" else "5," + "0" * count), right)
                raises(TypeError, lambda: Decimal("5").format("de", **options))
                raises(TypeError, lambda: number_skeleton(**options))
                raises(TypeError, lambda: Decimal.read("5", "de", **options))


def test_column(cases):
    rng = random.Random(9)
    texts = [random_text(rng) for _ in range(cases)]
    check(column(texts, "round:-2:half-even:1") == [str(Decimal(text).round(-2)) for text in texts], "round")
    check(column(texts, format="de") == [Decimal(text).format("de") for text in texts], "format")
    check(column(["250", "5"], "shift:-2", "display:always", format="de") == ["+2,50", "+0,05"], "calls")
    check(column(["1234.5", "7"], format="es", skeleton="KK") == ["1,2 mil", "7"], "skeleton")
    check(column(["-1234.5"], format="en", skeleton="") == ["-1,234.5"], "the empty skeleton")
    for made in (NumberFormat("de", **EUROS), NumberFormat("es", notation="compact"), NumberFormat("hi-u-nu-deva")):
        check(column(texts, format=made) == [made.format(text) for text in texts], "a format", made)
        wants = [made.format(Decimal(text).round(-1, "ceil")) for text in texts]
        check(column(texts, "round:-1:ceil:1", format=made) == wants, "calls, and a format", made)
        check(column(["1.234,5"], read="de", format=made) == [made.format("1234.5")], "read, and a format", made)
    unsigned = {"style": "currency", "currency": "USD", "currency_sign": "accounting", "sign_display": "never"}
    check(column(["-5"], format="en", **unsigned) == ["$5.00"], "options that no skeleton has")
    check(column(["1.234,5", "7"], read="de", format="en-IN") == ["1,234.5", "7"], "read")
    check(column(["1.234,5\xa0€"], "shift:2", read="de", read_skeleton="currency/EUR") == ["123450"], "read amounts")
    check(column(["EUR 5", "7"], read="de", read_skeleton="currency/EUR", lenient=True) == ["5", "7"], "read leniently")
    both = {"read_skeleton": "%x100", "skeleton": "%x100 .0"}
    check(column(["12.5%"], read="en", format="de", **both) == ["12,5\xa0%"], "both")
    check(column(["1 234,5"], read="fr", lenient=True) == ["1234.5"], "lenient")
    check(column(["12", "7"], "concat:0.5", "concat:0.005") == ["12.505", "7.505"], "operands")
    for errors in ("raise", "skip", "keep"):
        raises(DecimalError, lambda: column(["1", "2"], "shift:1", "concat:x", errors=errors), "operand syntax")
        raises(DecimalError, lambda: column([], "concat:1e40000", errors=errors), "operand limit")
    check(column(["1"] * 5, "pad-end:-32768") == ["1." + "0" * 32768] * 5, "long")
    check(column([], "trim-end") == [] and column(iter(["1"])) == ["1"], "empty")
    for error, call in (
        (ValueError, lambda: column(["1\n2"])), (ValueError, lambda: column(["1"], "round")),
        (ValueError, lambda: column(["1"], "trim-end:1")), (ValueError, lambda: column(["1"], "shift:99999")),
        (ValueError, lambda: column(["1"], "no")), (TypeError, lambda: column(["1"], 5)),
        (TypeError, lambda: column(["1"], format=b"de")), (TypeError, lambda: column(["1"], read=5)),
    ):
        raises(error, call)
    raises(DecimalError, lambda: column(["1"], read="tlh"), "unknown locale")
    raises(DecimalError, lambda: column([], read="tlh"), "unknown locale")
    raises(DecimalError, lambda: column([], format="de", skeleton="percent/w"), "skeleton syntax")
    raises(DecimalError, lambda: column([], skeleton="percent"), "unknown locale")
    for options in ({}, {"format": "de"}, {"format": NumberFormat("de")}, {"format": "de", "style": "percent"}):
        raises(DecimalError, lambda: column(["1"], read_skeleton="percent", **options), "unknown locale")
    raises(DecimalError, lambda: column([], read="vec", read_skeleton="K"), "unreadable format")
    # The first text that fails, in the calls or in the format, and its number.
    scaled = NumberFormat("en", skeleton="scale/100")
    for texts, calls, line in (
        (["1", "1e32767", "x"], ["trim-end"], 1), (["1", "x", "1e32767"], ["trim-end"], 1),
        (["1", "1e32767", "x"], [], 1), (["1", "x", "1e32767"], [], 1), (["1", "1e32766", "1e32767"], ["shift:1"], 1),
        (["1"] * 40000 + ["1e32767", "x"], ["trim-end"], 40000),
        (["1"] * 40000 + ["x", "1e32767"], ["trim-end"], 40000),
    ):
        reason = "syntax" if texts[line] == "x" else "overflow"
        message = f"line {line}: {reason}: '{texts[line]}'"
        raises(DecimalError, lambda: column(texts, *calls, format=scaled), reason, message)
        found = column(texts, *calls, format=scaled, errors="skip")
        wants = [scaled.format(column([text], *calls)[0]) for text in texts[:line]] + [None] * len(texts[line:])
        check(found == wants, "skip", found[line:])
    try:
        column(["1e32766"], "shift:1", "trim-end", format=scaled)
    except DecimalError as error:
        check((error.reason, error.at) == ("overflow", 2), "the number of calls", error.at)
    # The first text that fails, in the same block or in one before.
    for before, after in ((2, ["y"]), (2, ["1\n2"]), (50000, ["y"]), (50000, ["2"] * 50000 + ["1\n2"])):
        try:
            column(["1"] * before + ["x"] + after, "trim-end")
            check(False, "a text that fails")
        except DecimalError as error:
            check((error.reason, error.line) == ("syntax", before), error.reason, error.line)
    raises(ValueError, lambda: column(["1"] * 50000 + ["1\n2", "x"]))
    # The error has the number of the text, if it is the text that fails.
    raises(DecimalError, lambda: column(["1", "2", "x"]), "syntax", "line 2: syntax: 'x'")
    raises(DecimalError, lambda: column(["1", "10"], "shift:32767"), "overflow", "line 1: overflow: '10'")
    raises(DecimalError, lambda: column(["1", "\udcff"]), "syntax", "line 1: syntax: '\\udcff'")
    raises(DecimalError, lambda: column(["1"], format="tlh"), "unknown locale", "unknown locale: 'tlh'")
    raises(DecimalError, lambda: column(["1"], format=""), "unknown locale", "unknown locale")
    raises(DecimalError, lambda: column(["1"], read="\udcff"), "unknown locale", "unknown locale: '\\udcff'")
    raises(DecimalError, lambda: Decimal("x"), "syntax", "syntax: 'x'")
    try:
        column(["1", "x"])
    except DecimalError as error:
        copy = pickle.loads(pickle.dumps(error))
        check((copy.reason, copy.at, copy.line, str(copy)) == ("syntax", 0, 1, "line 1: syntax: 'x'"), "a copy", copy)


def test_errors_of_columns(cases):
    """With errors="skip" a text that fails has the result None, and with "keep" it is its own result."""
    rng = random.Random(13)
    wrong = ["x", "", "1\n2", "\n", "\ud800", "1e99999", "9" * 32768, decimal.Decimal("NaN"), 1 << 200000, "é"]
    is_wrong = [rng.random() < 0.2 for _ in range(cases + 40000)]
    texts = [rng.choice(wrong) if fails else random_text(rng) for fails in is_wrong]
    euros = NumberFormat("de", **EUROS)
    for options, one in (({}, lambda it: str(Decimal(it).shift(1))),
                         ({"format": "de"}, lambda it: Decimal(it).shift(1).format("de")),
                         ({"format": euros}, lambda it: euros.format(Decimal(it).shift(1)))):
        wants = [None if fails else one(text) for fails, text in zip(is_wrong, texts)]
        check(column(texts, "shift:1", errors="skip", **options) == wants, "skip", options)
        found = column(texts, "shift:1", errors="keep", **options)
        wants = [text if want is None else want for text, want in zip(texts, wants)]
        check(len(found) == len(wants) and all(it is want or it == want for it, want in zip(found, wants)), "keep")
    check(column(wrong, "shift:1", errors="skip") == [None] * len(wrong), "all fail")
    check(column(["1.5", "1,5"], read="de", errors="skip") == [None, "1.5"], "a text that is read")
    check(column(["1"], errors="raise") == ["1"] and column([], errors="skip") == [], "no text fails")
    for mode in ("skip", "keep"):
        for error, call in (
            (TypeError, lambda: column(["1", 1.5], errors=mode)), (TypeError, lambda: column(["1", None], errors=mode)),
            (TypeError, lambda: column([5], read="de", errors=mode)),
            (ValueError, lambda: column(["1"], "no", errors=mode)),
            (DecimalError, lambda: column(["1"], format="tlh", errors=mode)),
            (DecimalError, lambda: column(["1"], format="de", skeleton="percent/w", errors=mode)),
        ):
            raises(error, call)

    class Clears:
        """No number; being asked for its class it clears the list."""

        @property
        def __class__(self):
            texts.clear()
            return int

    for mode in ("raise", "skip", "keep"):
        texts = ["1", "x", Clears(), "1"]
        raises((RuntimeError, TypeError, DecimalError), lambda: column(texts, errors=mode))
    raises(ValueError, lambda: column(["1"], errors="drop"), text="no such handling of errors: drop")
    raises(TypeError, lambda: column(["1"], errors=None))


def test_words():
    """The words are those of fixdec, and no others."""
    for word, text, want in (
        ("shift:-2", "250", "2.50"), ("trim-start", "007", "7"), ("trim-end", "7.50", "7.5"),
        ("trim-end-if-integer", "7.00", "7"), ("pad-start:3", "7", "007"), ("pad-end:-2", "7", "7.00"),
        ("max:2", "4235.970", "35.970"), ("round:-2:half-even:1", "1234.565", "1234.56"),
        ("round:0:half-expand:25", "113", "125"), ("sign:minus", "5", "-5"), ("sign:none", "-5", "5"),
        ("sign:plus", "5", "+5"), ("display:except-zero", "5", "+5"), ("concat:0.5", "12", "12.5"),
        ("concat:0." + "0" * 2000 + "5", "12", "12." + "0" * 2000 + "5"),
    ):
        check(column([text], word) == [want], word, text, column([text], word))
    check(column(["1"], *["shift:1", "shift:-1"] * 100, "shift:2") == ["100"], "201 words")
    check(column(["1"], "concat:0.5", "concat:0.05", read="de", format="de") == ["1,55"], "operands beside forms")
    for word in (
        "", " ", "shift", "shift:", "shift: 1", "shift: 1_0", "shift:1_0", "shift:+2", "shift:٣", "shift:2 ",
        "shift:2\0", "shift:2\n", "shift:4294967298", "shift:99999", "shift:2:2", "ceil\0junk", "trim-end:",
        "trim-end:1", "trim-end\0", "Trim-end", "round:-2:half-even", "round:-2:half-even:1:1",
        "round:-2:half-even:4294967297",
        "round:-2:ceil\0:1", "round:-2:half-even:1\0", "round:0:up:1", "sign:5", "display:", "concat", "concat:5\0",
        "concat:\udcff", "\udcff", "read:de", "format:de", "format:", "read:", "format:de:K", "read:de:lenient", "skip",
        "field:2",
    ):
        raises(ValueError, lambda: column(["1"], word), text=f"no such call: {word}")
        raises(ValueError, lambda: column([], "trim-end", word), text=f"no such call: {word}")


def test_column_of_numbers():
    numbers = [1234, Decimal("001.50"), "7", decimal.Decimal("1.50"), True, 10**30, decimal.Decimal("1E+3"), -5]
    check(column(numbers) == [str(Decimal(number)) for number in numbers], "numbers")
    check(column(numbers, "shift:1") == [str(Decimal(number).shift(1)) for number in numbers], "numbers, and a call")
    check(column(numbers, format="de") == [Decimal(number).format("de") for number in numbers], "numbers in a locale")
    check(column(range(40000)) == [str(number) for number in range(40000)], "many")
    for texts, options, message in (
        (["1", 1.5], {}, "text 1 is a str, an int or a Decimal, not float, whose digits are not those that were "
                         "written: write str(x) of a float x"),
        (["1", None], {}, "text 1 is a str, an int or a Decimal, not NoneType"),
        (["1", b"1"], {}, "text 1 is a str, an int or a Decimal, not bytes"),
        (["1,5", 5], {"read": "de"}, "text 1 is read by a locale: it is a str, not int"),
        ([decimal.Decimal(1)], {"read": "de"}, "text 0 is read by a locale: it is a str, not decimal.Decimal"),
    ):
        raises(TypeError, lambda: column(texts, **options), text=message)
    raises(DecimalError, lambda: column([5, decimal.Decimal("NaN")]), "syntax", "line 1: syntax: 'NaN'")
    raises(DecimalError, lambda: column(["x", 1.5]), "syntax", "line 0: syntax: 'x'")
    raises(DecimalError, lambda: column(["1"] * 20000 + ["x"] + [1.5]), "syntax", "line 20000: syntax: 'x'")


def test_signals():
    """A signal is handled between the blocks of a column: it ends a long one, or changes the list."""
    texts = ["1234.5"] * 2000000 + ["x"]

    def stops(number, frame):
        raise KeyboardInterrupt

    def shortens(number, frame):
        del texts[-1]

    before = signal.getsignal(signal.SIGALRM)
    try:
        # The last text is wrong: were the signal handled after all texts, the error would be DecimalError.
        for handler, error in ((stops, KeyboardInterrupt), (shortens, RuntimeError)):
            signal.signal(signal.SIGALRM, handler)
            signal.setitimer(signal.ITIMER_REAL, 0.001)
            raises(error, lambda: column(texts, format="de"))
    finally:
        signal.setitimer(signal.ITIMER_REAL, 0)
        signal.signal(signal.SIGALRM, before)


def test_memory():
    """Each allocation of Python fails in turn: a call has its result, or raises MemoryError."""
    try:
        from _testcapi import remove_mem_hooks, set_nomemory
    except ImportError:
        return print("not run: _testcapi is missing")
    many, number, big = ["1234.5"] * 40000, decimal.Decimal("1.50"), 1 << 400
    one, padded, long = Decimal("1234.5"), Decimal("1").pad(end=-300), "7" * 300
    amount, euros = EUROS, NumberFormat("de", **EUROS)
    rows = [
        (lambda: NumberFormat("de", **amount), euros), (lambda: NumberFormat("de", skeleton="K").format(one), "1234"),
        (lambda: euros.format(one), "1.234,50\xa0€"), (lambda: euros.format("0" + long), euros.format(long)),
        (lambda: euros.format(5), "5,00\xa0€"), (lambda: euros.format(number), "1,50\xa0€"),
        (lambda: len(euros.format_to_parts(one)), 7), (lambda: len(euros.format_to_parts(long)), 203),
        (lambda: euros.format_range(one, 1500), "1.234,50–1.500,00\xa0€"),
        (lambda: len(euros.format_range_to_parts(long, number)), 207),
        (functools.partial(euros.format_range, 5, "x"), ("syntax", None)),
        (lambda: euros.read("1.234,50\xa0€"), Decimal("1234.50")),
        (lambda: euros.read("EUR 5", lenient=True), Decimal("5")),
        (lambda: euros.resolved_options()["currency"], "EUR"), (lambda: hash(euros), hash(euros)),
        (lambda: repr(euros), "NumberFormat('de', currency='EUR', style='currency')"),
        (lambda: euros == NumberFormat("en"), False), (lambda: pickle.loads(pickle.dumps(euros)), euros),
        (lambda: column(["250", 5, number], "shift:-2", format=euros), ["2,50\xa0€", "0,05\xa0€", "0,02\xa0€"]),
        (lambda: column(many[:17000], format=euros), ["1.234,50\xa0€"] * 17000),
        (lambda: column(["1", "x"], format=euros, errors="skip"), ["1,00\xa0€", None]),
        (functools.partial(NumberFormat, "tlh"), ("unknown locale", None)),
        (functools.partial(NumberFormat, "de", skeleton="K0"), ("skeleton syntax", None)),
        (functools.partial(euros.format, "x"), ("syntax", None)),
        (functools.partial(column, ["1", "x"], format=euros), ("syntax", 1)),
        (lambda: Decimal("1.50"), Decimal("1.50")), (lambda: Decimal(long), Decimal(long)),
        (lambda: Decimal(number), Decimal("1.50")), (lambda: Decimal(big), Decimal(str(big))),
        (lambda: str(one), "1234.5"), (lambda: repr(one), "Decimal('1234.5')"), (lambda: hash(one), hash(one)),
        (lambda: one.round(0, "ceil"), Decimal("1235")), (lambda: one.pad(end=-2, start=5), Decimal("01234.50")),
        (lambda: one.sign("always"), Decimal("+1234.5")), (lambda: one.format("de"), "1.234,5"),
        (lambda: one.format("de-" + "AT"[:2]), "1\xa0234,5"), (lambda: padded.format("de"), "1," + "0" * 300),
        (lambda: one.format("de", use_grouping=False), "1234,5"),
        (lambda: one.format("de", sign_display="always"), "+1.234,5"),
        (lambda: one.format("de", **amount), "1.234,50\xa0€"),
        (lambda: one.format(locale="de", skeleton="percent"), "1.234,5\xa0%"), (lambda: one.plural("de"), "other"),
        (lambda: Decimal.read("1.234,5", "de"), one), (lambda: f"{one:€>8}", "€€1234.5"),
        (lambda: f"{one:.2f}", "1234.50"), (lambda: pickle.loads(pickle.dumps(one)), one),
        (lambda: number_skeleton(rounding_mode="half-even", **amount), "currency/EUR"),
        (lambda: column(["250", 5, number], "shift:-2"), ["2.50", "0.05", "0.0150"]),
        (lambda: column(["1", "5"], "concat:0.5", read="en", format="de", **amount), ["1,50\xa0€", "5,50\xa0€"]),
        (lambda: column(many, format="de", use_grouping=False), ["1234,5"] * 40000),
        (lambda: -one, Decimal("-1234.5")), (lambda: abs(one), one), (lambda: int(one), 1234),
        (lambda: round(one), 1234), (lambda: round(one, 2), Decimal("1234.50")),
        (lambda: int(Decimal(long)), int(long)),
        (lambda: one.as_decimal(), decimal.Decimal("1234.5")), (lambda: one.with_sign("plus"), Decimal("+1234.5")),
        (lambda: column(["250", "x", "\ud800", 5], "shift:-2", errors="skip"), ["2.50", None, None, "0.05"]),
        (lambda: column(["250", "x", "\ud800", 5], "shift:-2", errors="keep"), ["2.50", "x", "\ud800", "0.05"]),
        (functools.partial(Decimal, "x"), ("syntax", None)),
        (functools.partial(one.format, "tlh"), ("unknown locale", None)),
        (functools.partial(column, ["1", "x"]), ("syntax", 1)),
        (functools.partial(column, ["1", big**500]), ("limit", 1)),
        (functools.partial(column, ["1", "\udcff"]), ("syntax", 1)),
    ]
    sys._getframe()  # so that CPython makes no object of this frame when an error is raised
    for call, want in rows:
        failed = passes = count = 0
        while passes < 15:
            if count:  # the first call has memory: what is made once is made
                set_nomemory(count - 1, count)
            try:
                found = call()
            except MemoryError:
                found = MemoryError
            except DecimalError as error:
                found = error.reason, error.line
            finally:
                remove_mem_hooks()
            failed += found is MemoryError
            passes = 0 if found is MemoryError else passes + 1
            count += 1 + count // 100
            check(found is MemoryError or found == want, "without memory", found, want)
        check(failed > 0, "an allocation", want)


if __name__ == "__main__":
    count = int(sys.argv[1]) if len(sys.argv) > 1 else 15000
    test_random(count)
    test_as_decimal(count // 7)
    test_other_modes(count // 7)
    test_padding(count // 7)
    test_numbers(count // 7)
    test_class()
    test_messages()
    test_kept_locale()
    test_version()
    test_stub()
    test_examples()
    test_options()
    test_number_format()
    test_ranges()
    test_characters()
    test_errors_of_number_formats()
    test_units()
    test_values_of_number_formats()
    test_kept_formats()
    test_threads()
    test_leaks()
    test_plain_options()
    test_types_of_options()
    test_column(count)
    test_errors_of_columns(count // 7)
    test_words()
    test_column_of_numbers()
    test_signals()
    test_memory()
    for case in failures[:20]:
        print("failed:", *case)
    print(f"{passed} passed, {len(failures)} failed")
    sys.exit(1 if failures else 0)
