#!/usr/bin/env python3
"""Writes rows of tests/rows of texts and errors of `Intl.NumberFormat`:

    python3 tools/numbers/make_rows.py TEXTS ERRORS CURRENCIES > tests/rows/node_numbers.tsv
    python3 tools/numbers/make_rows.py --units UNITS NAMES > tests/rows/node_units.tsv
    python3 tools/numbers/make_rows.py --parts PARTS > tests/rows/node_parts.tsv

TEXTS has rows of a locale, options as JSON by the names of ECMA-402, a number and its text; ERRORS has a locale,
options and the class of the error; both are made with node. CURRENCIES has rows of a code and its number of fraction
digits. Rows of errors are those of each distinct choice of digits. Rows of texts are those of `en`, style decimal, not
compact; of all others those that are the first with a locale, with a value of an option in a style and a notation, with
a currency and its display, or with what is written around and between digits, a symbol of a currency being any. UNITS
and NAMES have texts of units and of amounts with names of currencies; of these rows are written that are the first with
a locale and a width, with a unit and its width, after `per` too, with a currency, or with a value of another option in
a style and a notation. PARTS has parts instead of texts, as JSON: a type, a text and, in rows with a second number, the
source in the range. Of these rows are written that are the first with types
and sources in an order, in a style.
"""
import collections
import json
import os
import sys
import unicodedata

COUNTS = ["minimumIntegerDigits", "minimumFractionDigits", "maximumFractionDigits", "minimumSignificantDigits",
          "maximumSignificantDigits", "roundingIncrement", "roundingPriority", "notation"]
SHOWN = ["style", "currency", "currencyDisplay", "currencySign", "unit", "unitDisplay", "compactDisplay", *COUNTS,
         "roundingMode", "trailingZeroDisplay", "signDisplay", "useGrouping"]


def rows(path):
    with open(path, encoding="utf-8") as file:
        for line in file:
            if not line.startswith("#"):
                yield line.rstrip("\n").split("\t")


def words(options, names):
    values = {name: options[name] for name in names if name in options}
    shown = {True: "always", "true": "always", False: "false"}
    return " ".join(f"{name}={shown.get(value, value) if name == 'useGrouping' else value}"
                    for name, value in values.items())


def style_of(options, currencies):
    """A style that has the fraction digits of the style by default."""
    codes = {"2": "EUR", "3": "KWD", "4": "CLF"}
    style = options.get("style", "decimal")
    count = currencies.get(options["currency"], "2") if style == "currency" else "0"
    if style == "decimal":
        return ""
    return f"style=currency currency={codes[count]}" if count in codes else "style=percent"


def row_of(tag, options, number, text):
    return f"{tag}\t{words(options, SHOWN)}\t{number}\t{text}"


def texts(path):
    for tag, options, number, text in rows(path):
        yield tag, json.loads(options), number, text


def parts(path):
    """The rows of parts, each with its types and, in a range, their sources."""
    for tag, options, number, *end, found in rows(path):
        found = json.loads(found)
        text = "".join(f"|{kind}={text}" + "".join(f"@{it}" for it in source) for kind, text, *source in found)
        yield tag, json.loads(options), "..".join([number, *end]), [(kind, *source) for kind, _, *source in found], text


def row_of_parts(tag, options, number, _, text):
    shown = words(options | {"check": "parts"}, [*SHOWN, "check"])
    return f"{tag}\t{shown}\t{number}\t{text}"


def is_plain(tag, options):
    return tag == "en" and options.get("style", "decimal") == "decimal" and options.get("notation") != "compact"


def symbols_of_currencies():
    """The symbols and the code of each currency, the longest first."""
    found = collections.defaultdict(set)
    path = os.path.join(os.path.dirname(__file__), "..", "locales", "currency_symbols.tsv")
    for _, code, *symbols in rows(path):
        found[code].update([code, *symbols])
    return {code: sorted(symbols - {""}, key=len, reverse=True) for code, symbols in found.items()}


def around(text, symbols):
    """What a text has around its digits, and which marks between them, with one sign for each symbol."""
    symbol = next((it for it in symbols if it in text), None)
    text = text.replace(symbol, "\u00a4", 1) if symbol else text
    at = [index for index, it in enumerate(text) if unicodedata.category(it) == "Nd"]
    if not at:
        return text
    between = {it for it in text[at[0]:at[-1]] if unicodedata.category(it) != "Nd" and it not in ".,"}
    return f"{text[:at[0]]}0{''.join(sorted(between))}0{text[at[-1] + 1:]}"


def cover(path):
    """The rows of texts that have something as the first."""
    known, seen = symbols_of_currencies(), set()
    for tag, options, number, text in texts(path):
        style, notation, code = (options.get(it) for it in ["style", "notation", "currency"])
        has = {tag, around(text, known.get(code, [code] if code else [])), (code, options.get("currencyDisplay"))}
        has |= {(name, str(value), style, notation) for name, value in options.items()
                if not name.startswith(("minimum", "maximum")) and name != "currency"}
        if not has <= seen and not is_plain(tag, options):
            yield row_of(tag, options, number, text)
        seen |= has


def cover_units(path):
    """The rows of units and of names of currencies that have something as the first."""
    seen = set()
    for tag, options, number, text in texts(path):
        style, notation, width = (options.get(it) for it in ["style", "notation", "unitDisplay"])
        has = {(tag, style, width), (options.get("currency"), style)}
        has |= {(unit, place, width) for place, unit in enumerate(options.get("unit", "").split("-per-"))}
        has |= {(name, str(value), style, notation) for name, value in options.items()
                if not name.startswith(("minimum", "maximum")) and name not in ("currency", "unit")}
        if not has <= seen:
            yield row_of(tag, options, number, text)
        seen |= has


def cover_parts(path):
    """The rows of parts that have types in an order, in a style, as the first."""
    seen = set()
    for row in parts(path):
        order = (row[1].get("style"), *(kind for kind in row[3] if kind[0] not in ("group", "decimal", "fraction")))
        if order not in seen:
            yield row_of_parts(*row)
        seen.add(order)


def units(units_path, names_path):
    print("# Made by `python3 tools/numbers/make_rows.py --units UNITS NAMES`, of texts of node 20.20.2 with CLDR 48, "
          "under the license in tools/locales/LICENSE.")
    print("\n# Units.\n" + "\n".join(cover_units(units_path)))
    print("\n# Names of currencies.\n" + "\n".join(cover_units(names_path)))


def errors(path, currencies):
    for _, options, error in rows(path):
        options = json.loads(options)
        choice = " ".join(filter(None, [words(options, COUNTS), style_of(options, currencies)]))
        yield f"{choice}\t\t{error}"


def rounded(number, unit, mode, negative):
    """The multiple of a unit that a mode names for a number, without its sign."""
    down, rest = number // unit * unit, number % unit
    side = {"ceil": not negative, "floor": negative, "expand": True, "trunc": False}
    tie = {"halfCeil": not negative, "halfFloor": negative, "halfExpand": True, "halfTrunc": False,
           "halfEven": number // unit % 2 == 1}
    if mode in side:
        up = rest > 0 and side[mode]
    else:
        up = 2 * rest > unit or 2 * rest == unit and tie[mode]
    return down + unit if up else down


def ends():
    """7 at the lowest and at the highest magnitude, by each mode and increment."""
    for mode in ["ceil", "expand", "floor", "trunc", "halfCeil", "halfExpand", "halfFloor", "halfTrunc", "halfEven"]:
        for increment in [1, 2, 5, 10, 20, 25, 50, 100, 200, 250, 500, 1000, 2000, 2500, 5000]:
            for sign in ["", "-"]:
                made = rounded(7, increment, mode, sign == "-")
                yield f"roundingMode={mode} multiples=32768,{increment}\t{sign}0. 0*32767 7\t{sign}0. 0*32764 {made:04}"
                fits = increment % 10 != 0 and made < 10
                yield (f"notation=scientific roundingMode={mode} multiples=0,{increment}\t{sign}7 0*32767\t"
                       + (f"{sign}{made}E32767" if fits else "Limit"))


def main(texts_path, errors_path, currencies_path):
    currencies = {row[0]: row[1] for row in rows(currencies_path)}
    print("# Made by `python3 tools/numbers/make_rows.py TEXTS ERRORS CURRENCIES`, of texts of node 20.20.2 with "
          "CLDR 48, under the license in tools/locales/LICENSE.")
    print("\n# Both ends.\n" + "\n".join(ends()))
    plain = (f"{words(options, SHOWN)}\t{number}\t{text}" for tag, options, number, text in texts(texts_path)
             if is_plain(tag, options))
    print("\n# Texts of node.\n" + "\n".join(plain))
    print("\n# Errors of node.\n" + "\n".join(dict.fromkeys(errors(errors_path, currencies))))
    print("\n# Texts of node in each style and notation.\n"
          + "\n".join(cover(texts_path)))


if sys.argv[1] == "--units":
    units(*sys.argv[2:])
elif sys.argv[1] == "--parts":
    print("# Made by `python3 tools/numbers/make_rows.py --parts PARTS`, of parts of node 20.20.2 with CLDR 48, "
          "under the license in tools/locales/LICENSE.\n\n# Parts.\n" + "\n".join(cover_parts(sys.argv[2])))
else:
    main(*sys.argv[1:])
