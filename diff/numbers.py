#!/usr/bin/env python3
"""Compares numbers of the Python module with node's `Intl.NumberFormat`, by random options in random locales:

    python3 diff/numbers.py LOCALES [CASES [SEED]]

LOCALES is what `fixdec_lines --locales` prints, CASES is 20,000 by default. The tags are those of LOCALES that node
knows, and those of node itself: each tag of a language, a script and a region of tools/locales/symbols.tsv that node
resolves to itself. A few have a private use that looks like a numbering system. One number in five is a range. The
texts of numbers are read back if there is a reader of the options. Prints how often the two agree and how often each
known difference occurs; each other difference, and each text that is not read back, is a line, with status 1. Needs the
module, by `pip install ./python`, and node with this CLDR.
"""
import collections
import json
import os
import random
import re
import subprocess
import sys

from fixed_decimal import Decimal, NumberFormat

NODE = """
const NUMERAL = ['integer', 'group', 'decimal', 'fraction', 'exponentSeparator', 'exponentInteger', 'exponentMinusSign',
  'minusSign', 'plusSign', 'approximatelySign'];
const SAMPLES = ['0', '1', '2', '3', '5', '6', '7', '8', '11', '20', '21', '22', '100', '0.1', '0.5', '1.1', '1.5'];
const partsOf = (format, number) =>
  typeof number === 'string' ? format.formatToParts(number) : format.formatRangeToParts(...number);
const isName = ({ type }) => type === 'unit' || type === 'currency';
// The text of parts with other names of a unit or a currency.
const renamed = (parts, names) => parts.map(it => isName(it) ? names.shift() : it.value).join('');
// The numerals of a text, the texts around each, and the kinds of these.
const split = (format, number) => {
  const numerals = [], around = [''], kinds = [];
  let isInside = false;
  for (const { type, value } of partsOf(format, number)) {
    const isNumeral = NUMERAL.includes(type);
    if (isNumeral && !isInside) numerals.push(''), around.push('');
    (isNumeral ? numerals : around).push((isNumeral ? numerals : around).pop() + value);
    if (!isNumeral || !isInside) kinds.push(isNumeral ? 'numeral' : type);
    isInside = isNumeral;
  }
  return { numerals, around, kinds: kinds.join() };
};
// The numerals of a number, or a range, with the words before and after those of other numbers: the plural forms.
const forms = (format, number) => {
  const end = typeof number === 'string' ? number : number[1];
  const [, sign, whole] = /^(-?)([0-9]*)/.exec(end);
  const { numerals, around, kinds } = split(format, number);
  const parts = partsOf(format, number);
  const texts = new Set();
  const zeros = [0, 10, 12, ...[3, 2, 1].map(cut => Math.max(whole.length - cut, 0))];
  for (const sample of SAMPLES.flatMap(it => it.includes('.') ? [it] : zeros.map(count => it + '0'.repeat(count)))) {
    const other = split(format, typeof number === 'string' ? sign + sample : [number[0], sign + sample]);
    if (other.kinds === kinds) {
      const words = [other.around[0], ...around.slice(1, -1), other.around.at(-1)];
      texts.add(words.map((word, index) => word + (numerals[index] ?? '')).join(''));
    }
    const names = partsOf(format, sign + sample).filter(isName).map(({ value }) => value);
    if (names.length === parts.filter(isName).length) texts.add(renamed(parts, names));
  }
  return [...texts];
};
// The text of a number or a range, and its forms if a number has more digits than a double has.
const formatted = ([locale, number, options]) => {
  try {
    // For ranges node takes `latn` from the tag alone.
    const isLatin = typeof number !== 'string' && options.numberingSystem === 'latn';
    const tag = isLatin ? new Intl.Locale(locale, { numberingSystem: 'latn' }).toString() : locale;
    const format = new Intl.NumberFormat(tag, options);
    // The first two texts of a formatter may be wrong, by an error of ICU.
    for (let index = 0; index < 3; index++) format.format(1);
    const isLong = [number].flat().some(it => it.replace(/[^0-9]/g, '').length > 15);
    return [typeof number === 'string' ? format.format(number) : format.formatRange(...number),
      isLong ? forms(format, number) : []];
  } catch (error) { return [null, []]; }
};
const isKnown = locale => {
  try { return Intl.NumberFormat.supportedLocalesOf([locale]).length; } catch (error) { return false; }
};
const isOwn = tag => {
  try { return new Intl.NumberFormat(tag).resolvedOptions().locale === tag; } catch (error) { return false; }
};
const combined = ([languages, scripts, regions]) =>
  languages.flatMap(language => ['', ...scripts].flatMap(script => ['', ...regions].map(region =>
    [language, script, region].filter(subtag => subtag).join('-'))));
const [locales, subtags, cases] = JSON.parse(require('fs').readFileSync(0));
console.log(JSON.stringify(cases ? cases.map(formatted)
  : [...new Set([...locales.filter(isKnown), ...combined(subtags).filter(isOwn)])]));
"""
CURRENCIES = "EUR USD JPY CHF INR KWD BRL GBP XAF CAD ILS TND CLF XXX ZZZ MXN KRW UYW HUF IDR BYN".split()
UNITS = """acre bit byte celsius centimeter day degree fahrenheit fluid-ounce foot gallon gigabit gigabyte gram hectare
hour inch kilobit kilobyte kilogram kilometer liter megabit megabyte meter microsecond mile mile-scandinavian milliliter
millimeter millisecond minute month nanosecond ounce percent petabyte pound second stone terabit terabyte week yard
year""".split()
INCREMENTS = [1, 2, 5, 10, 20, 25, 50, 100, 200, 250, 500, 1000, 2000, 2500, 5000]
# The values of each option, and how often it is given.
CHOICES = {
    "notation": (0.4, ["compact", "compact", "scientific", "engineering"]),
    "compactDisplay": (0.4, ["short", "long"]),
    "signDisplay": (0.4, ["auto", "never", "always", "exceptZero", "negative"]),
    "useGrouping": (0.4, ["always", "auto", "min2", False, True]),
    "minimumIntegerDigits": (0.2, range(1, 9)),
    "roundingMode": (0.4, ["ceil", "floor", "expand", "trunc", "halfCeil", "halfFloor", "halfExpand", "halfTrunc",
                           "halfEven"]),
    "roundingPriority": (0.2, ["auto", "morePrecision", "lessPrecision"]),
    "trailingZeroDisplay": (0.2, ["auto", "stripIfInteger"]),
    "numberingSystem": (0.1, ["arab", "arabext", "deva", "beng", "thai", "fullwide", "latn", "hanidec"]),
}


def subtags():
    """The languages, the scripts and the regions of the tags of the tables."""
    path = os.path.join(os.path.dirname(os.path.abspath(__file__)), "..", "tools", "locales", "symbols.tsv")
    with open(path, encoding="utf-8") as file:
        parts = {part for line in file for part in line.split("\t")[0].partition("-u-")[0].split("-")} - {"root"}
    patterns = "[a-z]{2,3}", "[A-Z][a-z]{3}", "[A-Z]{2}|[0-9]{3}"
    return [sorted(part for part in parts if re.fullmatch(pattern, part)) for pattern in patterns]


def random_locale(rng, locales):
    return rng.choice(locales) + ("-x-a-u-nu-arab" if rng.random() < 0.02 else "")


def random_digits(rng, *lengths):
    return "".join(rng.choices("012345678909", k=rng.choice(lengths)))


def random_number(rng):
    whole = rng.choice([random_digits(rng, 1, 2, 3, 4, 6, 9, 15, 30), "0", "9" * rng.randint(1, 9)])
    fraction = rng.choice(["", "", "." + random_digits(rng, 1, 2, 5, 12), ".0000" + random_digits(rng, 1, 4), ".9995"])
    return rng.choice(["", "-"]) + whole + fraction


def random_range(rng):
    """Two numbers, which are equal or near each other now and then."""
    start = random_number(rng)
    near = start + ("1" if "." in start else ".001")
    return [start, rng.choice([random_number(rng), random_number(rng), start, near])]


def random_options(rng):
    options = {"style": rng.choice(["decimal", "percent", "currency", "unit"])}
    if options["style"] == "unit":
        options["unit"] = "-per-".join(rng.choice(UNITS) for _ in range(rng.choice([1, 1, 2])))
        options["unitDisplay"] = rng.choice(["short", "narrow", "long"])
    if options["style"] == "currency":
        options["currency"] = rng.choice(CURRENCIES)
        options["currencyDisplay"] = rng.choice(["symbol", "narrowSymbol", "code", "name"])
        options["currencySign"] = rng.choice(["standard", "accounting"])
    for name, (share, values) in CHOICES.items():
        if rng.random() < share:
            options[name] = rng.choice(values)
    for kind, most in (("Fraction", 8), ("Significant", 9)):
        if rng.random() < 0.3:
            low, high = sorted(rng.choices(range(1 if kind == "Significant" else 0, most), k=2))
            options |= {f"minimum{kind}Digits": low, f"maximum{kind}Digits": high}
    if rng.random() < 0.15:
        options["roundingIncrement"] = rng.choice(INCREMENTS)
        options["maximumFractionDigits"] = options["minimumFractionDigits"] = rng.randint(0, 4)
    return options


def keywords(options):
    return {re.sub("[A-Z]", lambda letter: "_" + letter[0].lower(), name): value for name, value in options.items()}


def by_module(locale, number, options):
    try:
        if isinstance(number, str):
            return Decimal(number).format(locale, **keywords(options))
        return NumberFormat(locale, **keywords(options)).format_range(*number)
    except ValueError:
        return None


def is_outer(options):
    """Whether a unit or a name is around the whole text."""
    return options["style"] == "unit" or options.get("currencyDisplay") == "name"


def is_read_back(text, locale, number, options):
    """Whether the text reads as a number that has this text, if there is a reader of the options."""
    # By two precisions a number that is rounded to 0 is shown otherwise than 0.
    if "roundingPriority" in options or not isinstance(number, str):
        return True
    form = NumberFormat(locale, **keywords(options))
    try:
        value = form.read(text)
    except ValueError as error:
        return str(error) == "unreadable format"
    again = form.format(value)
    # In compact notation the plural of a unit, a name or a percent sign depends on digits that are not shown.
    by_whole = options.get("notation") == "compact" and (options["style"] == "percent" or is_outer(options))
    return again == text or by_whole and form.read(again) == value


def is_azerbaijani(tag):
    return re.fullmatch("az(-latn)?(-az)?", tag) is not None


def exact(number):
    """Whether a number is negative, and its digits without zeros at the ends."""
    # `fractions` and `decimal` import the module `numbers`, which here would be this file.
    whole, _, fraction = number.lstrip("-").partition(".")
    digits = whole.lstrip("0"), fraction.rstrip("0")
    return number[0] == "-" and any(digits), *digits


def known(locale, number, options, own, text, forms):
    """The name of a difference that is node's, whose text and forms are given with our own text."""
    compact, increment = options.get("notation") == "compact", options.get("roundingIncrement", 1)
    numbers = [number] if isinstance(number, str) else number
    digits = max(len(re.sub("[^0-9]", "", it)) for it in numbers)
    if text and re.search("[\ud800-\udfff]", text):
        return "half of a digit in an exponent"
    if increment > 1 and digits > 28:
        return "an increment and more than 34 digits"
    if compact and increment > 10:
        return "compact, by the pattern of the rounded number"
    # ICU has the operands of plural rules as doubles. It writes all digits, so only the words around them differ.
    if own in forms:
        return "the plural form of more digits than a double has"
    # ICU compares the numbers of a range as doubles.
    if len({float(it) for it in numbers}) < len({exact(it) for it in numbers}):
        return "a range of two numbers that are the same double"
    tag = locale.partition("-x-")[0].lower()
    if is_azerbaijani(tag) and options.get("numberingSystem") in ("arab", "arabext") or tag.split("-")[0] == "yrl":
        return "letters or signs in a pattern"
    if (tag, options.get("currency")) == ("sr-cyrl-me", "BYN"):
        return "a currency of Cyrillic Montenegro by its name in Latin letters"
    if tag == "ku-iq":
        return "ku-IQ, which node has without the data of ku"
    return None


def node(*given):
    ran = subprocess.run(["node", "-e", NODE], input=json.dumps(given), stdout=subprocess.PIPE, text=True, check=True)
    return json.loads(ran.stdout)


def main(path, cases=20_000, seed=1):
    rng = random.Random(int(seed))
    with open(path, encoding="utf-8") as file:
        locales = node([line.split()[0] for line in file], subtags(), None)
    rows = [(random_locale(rng, locales), random_range(rng) if rng.random() < 0.2 else random_number(rng),
             random_options(rng)) for _ in range(int(cases))]
    counts = collections.Counter()
    for row, (text, forms) in zip(rows, node([], [], rows)):
        locale, number, options = row
        own = by_module(*row)
        name = "no text in either" if own is text is None else "equal" if own == text else ""
        name = name or own and known(*row, own, text, forms)
        if own and not is_read_back(own, locale, number, options):
            name = None
        counts[name] += 1
        if not name:
            print(*row, f"here {own!r}, in node {text!r}")
    print(*(f"{count} {name or 'differ'}" for name, count in counts.most_common()), sep="\n")
    return 1 if counts[None] else 0


if __name__ == "__main__":
    sys.exit(main(*sys.argv[1:]))
