#!/usr/bin/env python3
"""Writes rows of tests/rows: skeletons, and the options or the error that ICU has for each.

    python3 tools/numbers/skeleton_rows.py SKELETONS MODEL UNITS > tests/rows/icu_skeletons.tsv

SKELETONS has `skeleton_errors.tsv` and `normal.tsv`, which ICU wrote, `readings.tsv`, and `skeleton.py`, a reader that
says a skeleton in the options of ECMA-402; MODEL has its tables. UNITS has `skeleton_units_errors.tsv`,
`normal_units.tsv` and `skeletons_units.tsv`, which ICU wrote, and `skeleton_units.py`, which adds the stems of units to
the reader. Normal forms are those of ICU; it loses `group-auto` of compact notation.
"""
import os
import re
import sys

WHITE = "\t\n\v\f\r \x85\u200e\u200f\u2028\u2029"
HOSTILE = ["currency/EUR .00/@@#r/w rounding-mode-half-up ()?", "scientific/*ee/+! precision-increment/0.25 %x100",
           "KK group-auto unit-width-narrow latin scale/1e-3",
           "integer-width/##00 numbering-system/arab @@*/w +- EE+?00"]
HOSTILE_UNITS = ["unit/square-meter-per-microsecond unit-width-narrow", "unit/light-year-per-day compact-long",
                 "per-measure-unit/duration-day-person measure-unit/concentr-percent decimal-always"]
# What the library reads otherwise than ICU, as docs/DIFFERENCES.md says.
OTHERWISE = {"unit/square-square-meter": "unsupported unit"}
COUNTS = ["{@*65536}", "{@*65537}", "@{#*65535}", "@{#*65536}", ".{0*32768}", ".{0*32769}", ".{#*65535}", ".{#*65536}",
          ".00/{@*65537}r", ".{0*32769}/@s", "./@{#*65536}", "./{@*65537}*", "{0*32767}", "{0*32768}",
          "integer-width/*{0*32768}", "integer-width/{#*32768}0", "E{0*65535}", "E{0*65536}", "scientific/*{e*65536}",
          "scale/1e32767", "scale/1e32768", "scale/1e-32768", "scale/1e-32769", "scale/{0*65536}1", "scale/1{0*32768}",
          "precision-increment/1e-32768", "precision-increment/5e-32769", "precision-increment/5e3",
          "precision-increment/5e4", "precision-increment/.{0*32767}5", "precision-increment/.{0*32768}5",
          "{.*65536}", "{percent *65536}", "currency/{E*65536}", "numbering-system/{l*65536}", "{/*65536}"]
DEFAULTS = {"style": "decimal", "currencyDisplay": "symbol", "currencySign": "standard", "currencyUsage": "standard",
            "compactDisplay": "short", "unitDisplay": "short", "decimalSeparator": "auto", "integer": "1,32768",
            "trailingZeroDisplay": "auto", "signDisplay": "auto", "useGrouping": "auto", "groupSizes": "locale",
            "perDisplay": "auto"}


def rows(path):
    with open(path, encoding="utf-8", newline="\n") as file:
        for line in file:
            if not line.startswith("# "):
                yield line.rstrip("\n").split("\t")


def escaped(text):
    """A skeleton of a row as tests/rows.py reads it: only `\\\\{TEXT*COUNT}` stays short."""
    def one(match):
        code = match.group(0)
        if code[1] == "u":
            return chr(int(code[2:], 16))
        if code[1] == "{":
            return "«" + code[2:-1] + "»"
        return {"t": "␉", "n": "␊", "r": "␍"}.get(code[1], code[1])
    return re.sub(r"\\(?:u[0-9a-fA-F]{4}|\{[^}]*\}|.)", one, text).encode("utf-16", "surrogatepass").decode("utf-16")


def stems(text):
    return [token.split("/")[0] for token in re.split("[" + WHITE + "]+", text) if token]


def first(text, names):
    """The first stem that is one of these."""
    return next(stem for stem in stems(text) if re.fullmatch(names, stem))


def loses_second(reading, said):
    """Whether the options of ECMA-402 lose the unit after `per`: percent, not by its name and not in compact
    notation."""
    options = said.options
    return (isinstance(reading.unit, tuple) and options.get("unit", "").startswith("percent-per-")
            and options["unitDisplay"] != "long" and options.get("notation") != "compact")


def unsupported(text, reading, said):
    """The stem that the library has not, in the order in which it looks for them."""
    kinds = set(said.kinds)
    if kinds & {"formal", "variant"}:
        return first(text, r"unit-width-(?:formal|variant)")
    if not re.fullmatch("[A-Za-z]{3}", said.options.get("currency", "XXX")):
        return "currency"
    if "scale" in kinds or not -32768 <= said.scale <= 32767:
        return "scale"
    if reading.notation in ("scientific", "engineering") and not 1 <= reading.exponent_digits <= 65535:
        return first(text, r"scientific|engineering|E.*")
    if reading.integer and reading.integer[0] > 32767:
        return first(text, r"integer-width(?:-trunc)?|0+")
    if precision(text, reading, said) is None:
        return first(text, r"precision-increment|@.*|\..*")
    if kinds & {"halfOdd", "unnecessary"}:
        return first(text, r"rounding-mode-(?:half-odd|unnecessary)")
    if "algorithmic" in kinds:
        return "numbering-system"
    return None


def precision(text, reading, said):
    """The words of the precision, or None if the library has not such an increment or number of digits."""
    options, chosen = said.options, reading.precision
    if chosen is None and "compact" in options.get("notation", ""):
        return "more=0,0;1,2;chosen"
    if chosen is None and options.get("style") == "currency":
        count, _ = skeleton.currency_digits(options["currency"], "standard")
        return f"fraction={count},{count}"
    if chosen is None:
        return f"fraction=0,{options['maximumFractionDigits']}"
    if chosen[0] in ("increment", "currency"):
        if "increment" in said.kinds or reading.bounds:
            return None
        count = options["maximumFractionDigits"]
        if count > 32768:
            return None
        increment = options.get("roundingIncrement", 1)
        is_plain = chosen[0] == "currency" and increment == 1
        return f"fraction={count},{count}" if is_plain else f"multiples={count},{increment}"
    if chosen[0] == "unlimited":
        return "fraction=0,65535"
    if chosen[0] == "fraction":
        low, high = chosen[1], min(65535, 65535 if chosen[2] is None else chosen[2])
        return f"fraction={low},{high}" if low <= 32768 else None
    if chosen[0] == "significant":
        low, high = chosen[1], min(65536, 65536 if chosen[2] is None else chosen[2])
        return f"significant={low},{high}" if low <= 65536 else None
    _, low, high, least, most, priority, both = chosen
    high, most = min(65535, 65535 if high is None else high), min(65536, most)
    if low > 32768 or least > most:
        return None
    name = {"relaxed": "more", "strict": "less"}[priority]
    return f"{name}={low},{high};{least},{most};{'both' if both else 'chosen'}"


def words(text):
    """The words of a valid skeleton."""
    reading = read(text)
    if isinstance(reading, str):
        return "unsupported " + reading
    try:
        said = skeleton_units.say(reading)
    except skeleton.Unsupported:
        return "unsupported per-measure-unit"
    stem = unsupported(text, reading, said)
    if stem is not None:
        return "unsupported " + stem
    return " ".join(f"{name}={value}" for name, value in named(text, reading, said) if value != DEFAULTS.get(name))


def style_of(reading, said):
    """The style: percent and permille are units by their names, in compact notation, and there with another unit."""
    options = said.options
    if reading.unit in ("percent", "permille") and options.get("style") == "unit":
        is_compact = options.get("notation") == "compact"
        is_alone = reading.unit == "percent" and reading.width == "short" and not getattr(reading, "per", None)
        if is_alone and is_compact or not is_compact and reading.width != "full-name":
            return reading.unit
    return "permille" if "permille" in said.kinds else options.get("style", "decimal")


def named(text, reading, said):
    """The options of a skeleton by their names."""
    options = said.options
    style = style_of(reading, said)
    yield "style", style
    if said.scale != {"percent": 2, "permille": 3}.get(style, 0):
        yield "scale", said.scale
    if style == "unit":
        yield "unit", options["unit"].replace("-person", "")
        yield "unitDisplay", options["unitDisplay"]
        yield "perDisplay", "always" if loses_second(reading, said) else "auto"
    if style == "currency":
        yield "currency", options["currency"]
        yield "currencyDisplay", "hidden" if "hidden" in said.kinds else options.get("currencyDisplay", "symbol")
        yield "currencySign", options.get("currencySign", "standard")
        yield "currencyUsage", "cash" if reading.precision == ("currency", "cash") else "standard"
    notation = options.get("notation", "standard")
    if notation in ("scientific", "engineering"):
        sign = reading.exponent_sign if reading.exponent_sign in ("always", "never") else "auto"
        yield notation, f"{reading.exponent_digits},{sign}"
    elif notation == "compact":
        yield "notation", "compact"
        yield "compactDisplay", options["compactDisplay"]
    yield tuple(precision(text, reading, said).split("="))
    low, high = reading.integer or (1, None)
    yield "integer", f"{low},{32768 if high is None else min(32768, high)}"
    yield "roundingMode", options["roundingMode"]
    yield "trailingZeroDisplay", "stripIfInteger" if "trailingZeroDisplay" in options else "auto"
    yield "signDisplay", options.get("signDisplay", "auto")
    yield "useGrouping", str(options.get("useGrouping", "auto")).lower()
    yield "groupSizes", "thousands" if reading.group == "thousands" else "locale"
    yield "decimalSeparator", reading.decimal
    if reading.system:
        yield "numberingSystem", reading.system


def read(text):
    """The reading of a valid skeleton with counts of any size, or the stem of a unit."""
    try:
        skeleton.LIMIT = 10**9
        return skeleton.read(text)
    except skeleton.OutOfBounds:
        return bounded(text)
    except skeleton.Unsupported as error:
        name = str(error)
        if name == "increment":
            return "precision-increment"
        return "usage" if "usage" in stems(text) else "unit"
    except skeleton_units.Internal:
        return first(text, r"per-measure-unit|measure-unit")


def bounded(text):
    """The reading of a skeleton whose counts ICU accepts only as a text: no exponent digit, or no increment."""
    has_exponent = re.search(r"(?:scientific|engineering)\S*/[*+](?:/|\s|$)", text)
    return first(text, r"scientific|engineering" if has_exponent else r"precision-increment")


def expected(text):
    """The words of any skeleton, or its error."""
    try:
        skeleton.LIMIT = 10**9
        skeleton.read(text)
    except skeleton.SkeletonError as error:
        return f"syntax {bytes_before(text, error.offset)}"
    except (skeleton.OutOfBounds, skeleton.Unsupported, skeleton_units.Internal):
        pass
    return words(text)


def hostile():
    """Each prefix of some skeletons, each byte of them changed, and counts at and beyond the limits."""
    for text in HOSTILE + HOSTILE_UNITS:
        for at in range(len(text)):
            yield text[:at]
            yield from (text[:at] + byte + text[at + 1:] for byte in "/ 0xE*" if byte != text[at])
    yield from ("\\" + text if text[0] == "{" else text.replace("{", "\\{") for text in COUNTS)


def bytes_before(text, units):
    return len(text.encode("utf-16-le", "surrogatepass")[:2 * units].decode("utf-16-le").encode())


def main(folder, model, units):
    sys.path[:0] = [folder, units]
    sys.dont_write_bytecode = True
    os.environ["NUMBER_FORMAT"] = model
    global skeleton, skeleton_units
    import skeleton
    import skeleton_units
    print("# Made by `python3 tools/numbers/skeleton_rows.py SKELETONS MODEL UNITS`, "
          "of what ICU 78.2 says of skeletons.")
    print("\n# The options of skeletons.")
    seen = set()

    def put(text, expected):
        if text not in seen:
            seen.add(text)
            expected = OTHERWISE.get(text, expected)
            print(escaped(text) + "\t" + re.sub(r"(.)\1{99,}", lambda run: f"«{run[1]}*{len(run[0])}»", expected))

    for row in rows(os.path.join(folder, "readings.tsv")):
        put(row[0], words(skeleton.unescape(row[0])))
    for row in rows(os.path.join(units, "skeletons_units.tsv")):
        put(row[1], words(skeleton.unescape(row[1])))
    print("\n# Errors.")
    errors = [os.path.join(folder, "skeleton_errors.tsv"), os.path.join(units, "skeleton_units_errors.tsv")]
    for text, error, offset in (row for path in errors for row in rows(path)):
        plain = skeleton.unescape(text)
        if error == "U_NUMBER_SKELETON_SYNTAX_ERROR":
            put(text, f"syntax {bytes_before(plain, int(offset))}")
        else:
            put(text, words(plain))
    print("\n# Hostile texts.")
    for text in hostile():
        put(text, expected(skeleton.unescape(text)))
    print("\n# Options are printed as ICU's normal form, which has the options of its skeleton.")
    normals = [os.path.join(folder, "normal.tsv"), os.path.join(units, "normal_units.tsv")]
    for text, normal in (row for path in normals for row in rows(path)):
        loses_grouping = re.match("K|compact", text) and "group-auto" in text
        loses_unit = re.search("percent|permille", text) and "per-measure-unit" in text
        if loses_grouping or loses_unit or "error " in normal:
            continue
        own = words(skeleton.unescape(text))
        if re.match("unsupported .*unit$", own):
            continue
        if own.startswith("unsupported ") or says_more(normal):
            if text != normal:
                print(escaped(text) + "\t=" + escaped(normal))
        else:
            print(escaped(text) + "\t>" + escaped(normal))


def says_more(normal):
    """Whether a normal form has a stem that changes no option: without a currency, or of the sign of an exponent."""
    always = r"(scientific|engineering)\S*/sign-(except-zero|accounting|negative)|precision-currency-standard"
    of_currencies = r"sign-accounting|precision-currency-cash|unit-width-(?:iso-code|formal|variant|hidden)"
    has_width = re.search("currency/|unit/|compact.*(?:percent|permille)|(?:percent|permille).*full-name", normal)
    return (re.search(always, normal) or "currency/" not in normal and re.search(of_currencies, normal)
            or not has_width and "unit-width" in normal or "-person" in normal)


if __name__ == "__main__":
    main(*sys.argv[1:])
