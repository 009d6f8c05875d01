"""The tables of percent, currency, compact and scientific formats."""
import unicodedata

from table_text import FOLDER, Texts, array, head, listed_tags, path, rows

PIECES = {
    "-": "Minus", "+": "Plus", "%": "Percent", "\u00a4": "Currency", "(": "OpenParenthesis", ")": "CloseParenthesis",
    "\u00a0": "NoBreakSpace", "\u202f": "NarrowNoBreakSpace", "\u061c": "ArabicMark", "\u200e": "LeftMark",
    "\u200f": "RightMark",
}
PLACES = ("first", "second", "third", "fourth")
SEPARATORS = {".": "Period", ",": "Comma", "\u00a0": "NoBreakSpace", "\u202f": "NarrowNoBreakSpace", "$": "Dollar"}
EXPONENTS = {
    "E": "LatinCapitalE", "e": "LatinSmallE", "^": "Caret", "\u00d710^": "TimesTen", "\u00b710^": "DotTen",
    "\u00d7\u06f1\u06f0^": "TimesArabicTen", "\u0623\u0633": "ArabicHamza", "\u0627\u0633": "ArabicAlef",
    "\u0415": "CyrillicIe", "\U0001e909": "AdlamMiim",
}
PERCENT_SIGNS = {
    "%": "Percent", "\u066a": "Arabic", "\u066a\u061c": "ArabicBeforeArabicMark",
    "\u066a\u200f": "ArabicBeforeRightMark", "\u200e%\u200e": "Enclosed", "~": "Tilde",
}
PERMILLE_SIGNS = {
    "\u2030": "Permille", "\u0609": "Arabic", "\u0609\u200f": "ArabicBeforeRightMark", "0/00": "Ascii",
}
COUNTS = {"1": "ExactlyOne", "zero": "Zero", "one": "One", "two": "Two", "few": "Few", "many": "Many", "other": "Other"}
STYLES = (("compact.tsv", "short"), ("compact.tsv", "long"), ("compact_currency.tsv", "short"))
FIELDS = ("percent", "standard", "accounting", "signs", "compact")
# Aliases of tags in CLDR and BCP 47, which have the rows of another tag, also with more subtags.
ALIASES = {"en-us-posix": "en-us-u-va-posix", "in": "id", "iw": "he", "kk-cn": "kk-arab-cn", "mo": "ro",
           "sh": "sr-latn", "tl": "fil"}
FORMATS_HEAD = """use super::rows::TableRange;
use super::rows::formats::{FormatSystem, LocaleFormats, SystemFormats};
use super::rows::patterns::ExponentSeparator::*;
use super::rows::patterns::Piece::*;
use super::rows::patterns::{
    Affix, AffixPair, CurrencyOverride, MoneyFormat, MoneySeparator, NumberSigns, Pattern,
    PercentSign, PermilleSign,
};

macro_rules! patterns {
    ($($a:ident $b:ident $c:ident $d:ident $e:ident $f:ident $primary:literal $secondary:literal;)*) => {
        [$(Pattern {
            positive: AffixPair { prefix: $a, suffix: $b },
            negative: AffixPair { prefix: $c, suffix: $d },
            plus: AffixPair { prefix: $e, suffix: $f },
            primary: $primary,
            secondary: $secondary,
        }),*]
    };
}

macro_rules! locales {
    ($($tag:literal $percent:literal $standard:literal $accounting:literal $signs:literal $compact:literal
       $unit:literal $money:literal;)*) => {
        [$(LocaleFormats {
            tag: *$tag,
            percent: $percent,
            standard: $standard,
            accounting: $accounting,
            signs: $signs,
            compact: $compact,
            unit: $unit,
            money: $money,
        }),*]
    };
}

macro_rules! in_system {
    ($($tag:literal, $percent:expr, $standard:expr, $accounting:expr, $signs:expr, $compact:expr;)*) => {
        [$(SystemFormats {
            tag: *$tag,
            percent: $percent,
            standard: $standard,
            accounting: $accounting,
            signs: $signs,
            compact: $compact,
        }),*]
    };
}

macro_rules! systems {
    ($($name:literal $start:literal $end:literal $root:ident;)*) => {
        [$(FormatSystem { name: *$name, rows: TableRange($start, $end), root: $root }),*]
    };
}
"""
CURRENCY_HEAD = """use super::rows::TableRange;
use super::rows::currencies::{Currency, CurrencyText, LocaleCurrency, LocaleOverride};

macro_rules! currencies {
    ($($code:literal $digits:literal $cash_digits:literal $cash_increment:literal $symbol:literal $narrow:literal
       $start:literal $end:literal $first:literal $last:literal;)*) => {
        [$(Currency {
            code: *$code,
            digits: $digits,
            cash_digits: $cash_digits,
            cash_increment: $cash_increment,
            symbol: $symbol,
            narrow: $narrow,
            symbols: TableRange($start, $end),
            overrides: TableRange($first, $last),
        }),*]
    };
}

macro_rules! symbols {
    ($($tag:literal $symbol:literal $narrow:literal;)*) => {
        [$(LocaleCurrency { tag: *$tag, symbol: $symbol, narrow: $narrow }),*]
    };
}

macro_rules! overrides {
    ($($tag:literal $pattern:literal;)*) => {
        [$(LocaleOverride { tag: *$tag, pattern: $pattern }),*]
    };
}

macro_rules! texts {
    ($($start:literal $end:literal $before:literal $after:literal;)*) => {
        [$(CurrencyText { bytes: TableRange($start, $end), space_before: $before, space_after: $after }),*]
    };
}
"""
COMPACT_HEAD = """use super::rows::TableRange;
use super::rows::compact::CompactForm::*;
use super::rows::compact::{
    AffixText, CompactPattern, CompactRows, CompactRun, CompactSet, PercentUnit, UnitPattern,
};
use plural_rules::PluralCategory::*;

macro_rules! sets {
    ($($a:literal $b:literal $c:literal $d:literal $e:literal $f:literal $g:literal $h:literal $i:literal;)*) => {
        [$(CompactSet {
            short: CompactRows { exponents: $a, runs: TableRange($b, $c) },
            long: CompactRows { exponents: $d, runs: TableRange($e, $f) },
            currency: CompactRows { exponents: $g, runs: TableRange($h, $i) },
        }),*]
    };
}

macro_rules! runs {
    ($($first:literal $start:literal $end:literal;)*) => {
        [$(CompactRun { first: $first, patterns: TableRange($start, $end) }),*]
    };
}

macro_rules! count {
    (ExactlyOne) => {
        None
    };
    ($category:ident) => {
        Some($category)
    };
}

macro_rules! affix {
    () => {
        AffixText { before: TableRange(0, 0), has_currency: false, after: TableRange(0, 0) }
    };
    ($start:literal $end:literal) => {
        AffixText { before: TableRange($start, $end), has_currency: false, after: TableRange(0, 0) }
    };
    ($start:literal $end:literal $first:literal $last:literal) => {
        AffixText { before: TableRange($start, $end), has_currency: true, after: TableRange($first, $last) }
    };
}

macro_rules! patterns {
    ($($count:ident $form:ident [$($prefix:literal)*] [$($suffix:literal)*];)*) => {
        [$(CompactPattern {
            count: count!($count),
            form: $form,
            prefix: affix!($($prefix)*),
            suffix: affix!($($suffix)*),
        }),*]
    };
}

macro_rules! units {
    ($($a:literal $b:literal $c:literal $d:literal $e:literal $f:literal $g:literal $h:literal;)*) => {
        [$(PercentUnit {
            one: UnitPattern { prefix: TableRange($a, $b), suffix: TableRange($c, $d) },
            other: UnitPattern { prefix: TableRange($e, $f), suffix: TableRange($g, $h) },
        }),*]
    };
}
"""


class Indices:
    """Values without repetition, each with its index."""

    def __init__(self):
        self.all = {}

    def of(self, value):
        return self.all.setdefault(value, len(self.all))


class Data:
    """The rows of the files. Tags are in lower case, and root is `und`."""

    def __init__(self, folder=FOLDER):
        def table(name, keys):
            found = {}
            for row in rows(name, folder):
                key = tuple([row[0].lower(), *row[1:keys]])
                found[key[0] if keys == 1 else key] = tuple(row[keys:])
            return found

        def blocks(name):
            found = {}
            for tag, system, style, first, count, exponent, *pattern in rows(name, folder):
                runs = found.setdefault((tag.lower(), system, style), {})
                runs.setdefault(int(first), (int(exponent), []))[1].append((count, *pattern))
            return {key: tuple((first, exponent, tuple(patterns)) for first, (exponent, patterns) in runs.items())
                    for key, runs in found.items()}

        self.percent = table("percent.tsv", 2)
        self.unit = {}
        for tag, category, pattern in rows("percent_unit.tsv", folder):
            self.unit.setdefault(tag.lower(), {})[category] = pattern
        self.currency = table("currency.tsv", 3)
        self.overrides = table("currency_overrides.tsv", 2)
        self.locale_overrides = {tag: row[1:] for tag, row in table("currency_locale_overrides.tsv", 1).items()}
        self.symbols = table("currency_symbols.tsv", 2)
        self.digits = table("currency_digits.tsv", 1)
        self.digits = {code.upper(): digits for code, digits in self.digits.items()}
        self.signs = {key: (row[0], *row[3:]) for key, row in table("scientific.tsv", 2).items()}
        self.compact = {(name, style): {key[:2]: runs for key, runs in blocks(name).items() if key[2] == style}
                        for name, style in STYLES}

    def systems(self):
        """The numbering systems that have formats of their own."""
        tables = [self.percent, self.currency, self.signs, *self.compact.values()]
        return sorted({key[1] for table in tables for key in table} - {"latn"})


def canonical(tag):
    """The tag that an alias stands for."""
    alias = next((it for it in path(tag) if it in ALIASES), None)
    return ALIASES[alias] + tag[len(alias):] if alias else tag


def own(table, tag, *key):
    """The row of the longest prefix of a tag, or None."""
    return next((table[it, *key] for it in path(canonical(tag)) if (it, *key) in table), None)


def latin(table, tag, *key):
    return own(table, tag, "latn", *key) or table["und", "latn", *key]


def kinds_of(data):
    """For each kind of format: what a tag has in a system of its own, or None, and what it has in `latn`."""
    def currency(sign):
        """The affixes and the sizes: the separators are money's, the same in each system."""
        def of(row):
            return row and row[:6] + row[8:]
        return (lambda tag, system: of(own(data.currency, tag, system, sign)),
                lambda tag: of(latin(data.currency, tag, sign)))

    def own_compact(tag, system):
        found = [own(data.compact[style], tag, system) for style in STYLES]
        return tuple(it or latin(data.compact[style], tag) for it, style in zip(found, STYLES)) if any(found) else None

    return {
        "percent": (lambda tag, system: own(data.percent, tag, system), lambda tag: latin(data.percent, tag)),
        "standard": currency("standard"),
        "accounting": currency("accounting"),
        "signs": (lambda tag, system: own(data.signs, tag, system), lambda tag: latin(data.signs, tag)),
        "compact": (own_compact, lambda tag: tuple(latin(data.compact[style], tag) for style in STYLES)),
    }


def unit_of(data, tag):
    found = next((data.unit[it] for it in path(canonical(tag)) if it in data.unit), {"other": "{0}%"})
    assert set(found) <= {"one", "other"}
    return found.get("one", found["other"]), found["other"]


def money_of(data, tag):
    """The separators of money, and the pattern of the region's currency."""
    row = latin(data.currency, tag, "standard")
    override = next((data.locale_overrides[it] for it in path(canonical(tag)) if it in data.locale_overrides), None)
    return row[6], row[7], override


class Formats:
    """The distinct values of each kind with their indices, the rows of locales, and those of each system."""

    def __init__(self, data, tags):
        self.data, self.kinds = data, kinds_of(data)
        self.patterns, self.signs, self.compact, self.units, self.money, self.overrides = (Indices() for _ in range(6))
        self.root = self.row("und")
        self.locales = listed_tags(tags, self.row, lambda tag: self.root)
        nothing = (None,) * len(FIELDS)
        self.systems = {system: (self.own_row("und", system),
                                 listed_tags(tags, lambda tag: self.own_row(tag, system), lambda tag: nothing))
                        for system in data.systems()}
        for fields in [data.overrides[key] for key in sorted(data.overrides)]:
            self.override(fields)

    def index(self, kind, value):
        if value is None:
            return None
        return {"signs": self.signs, "compact": self.compact}.get(kind, self.patterns).of(value)

    def row(self, tag):
        decimal, grouping, override = money_of(self.data, tag)
        replaced = None if override is None else self.override(override)
        return (*[self.index(kind, self.kinds[kind][1](tag)) for kind in FIELDS],
                self.units.of(unit_of(self.data, tag)), self.money.of((decimal, grouping, replaced)))

    def own_row(self, tag, system):
        return tuple(self.index(kind, self.kinds[kind][0](tag, system)) for kind in FIELDS)

    def override(self, fields):
        return self.overrides.of((self.patterns.of(fields[:6] + fields[8:]), fields[6], fields[7]))


# ---- Source.


def padded(tag):
    return f'b"{tag:16}"'


def option(value):
    return "None" if value in (None, "") else f"Some({value})"


def separator(text):
    return f"MoneySeparator::{SEPARATORS[text]}" if text else None


def called(title, name, kind, macro, items):
    """A table that is one call of a macro, with as many rows on a line as there is room for."""
    lines = [""]
    for item in items:
        if lines[-1] and len(lines[-1]) + len(item) > 114:
            lines.append("")
        lines[-1] += f" {item};" if lines[-1] else f"    {item};"
    shown = "".join(f"{line}\n" for line in lines)
    return (f"/// {title}\n#[rattlefmt::skip]\npub static {name}: [{kind}; {len(items)}] = {macro}! {{\n{shown}}};\n")


def affix_constants(affixes):
    lines = []
    for affix, name in affixes.items():
        pieces = [PIECES[it] for it in affix] + ["Empty"] * (len(PLACES) - len(affix))
        fields = ", ".join(": ".join(pair) for pair in zip(PLACES, pieces))
        lines.append(f"#[rattlefmt::skip]\nconst {name}: Affix = Affix {{ {fields} }};\n")
    return "\n".join(lines)


def system_fields(fields):
    return ", ".join(option(value) for value in fields)


def formats_table(formats):
    affixes = {}
    for fields in formats.patterns.all:
        for affix in fields[:6]:
            affixes.setdefault(affix, f"A{len(affixes)}")
    patterns = [" ".join([*[affixes[it] for it in fields[:6]], *fields[6:]]) for fields in formats.patterns.all]
    replaced = [f"    CurrencyOverride {{ pattern: {pattern}, decimal: {separator(decimal)}, grouping: "
                f"{separator(grouping)} }},\n" for pattern, decimal, grouping in formats.overrides.all]
    money = [f"    MoneyFormat {{ decimal: {option(separator(decimal))}, grouping: {option(separator(grouping))}, "
             f"replaced: {option(index)} }},\n" for decimal, grouping, index in formats.money.all]
    signs = [f"    NumberSigns {{ exponent: {EXPONENTS[exponent]}, percent: PercentSign::{PERCENT_SIGNS[percent]},\n"
             f"        permille: PermilleSign::{PERMILLE_SIGNS[permille]} }},\n"
             for exponent, percent, permille in formats.signs.all]
    shared, others, roots, systems = {}, [], {}, []
    for system, (root, found) in formats.systems.items():
        if tuple(found) not in shared:
            shared[tuple(found)] = (len(others), len(others) + len(found))
            others += [f"{padded(tag)}, {system_fields(fields)}" for tag, fields in found]
        name = roots.setdefault(root, f"ROOT_{len(roots)}")
        systems.append("{} {} {} {}".format(padded(system), *shared[tuple(found)], name))
    names = ("tag", *FIELDS)
    constants = [f"#[rattlefmt::skip]\nconst {name}: SystemFormats = SystemFormats {{\n    " + ", ".join(
        f"{field}: {value}" for field, value in zip(names, ["*" + padded(""), *map(option, root)])) + ",\n};\n"
        for root, name in roots.items()]
    root = ", ".join(f"{field}: {value}" for field, value in
                     zip((*names, "unit", "money"), ["*" + padded(""), *formats.root]))
    return "\n".join([
        head("The formats of numbers in locales.", FORMATS_HEAD), affix_constants(affixes),
        called("The patterns of percent and of currencies.", "PATTERNS", "Pattern", "patterns", patterns),
        array("The patterns of single currencies.", "CURRENCY_OVERRIDES", "CurrencyOverride", replaced),
        array("How locales write money.", "MONEY_FORMATS", "MoneyFormat", money),
        array("The exponent separators, percent signs and per mille signs.", "NUMBER_SIGNS", "NumberSigns", signs),
        "/// The formats of a tag that is not listed.\n#[rattlefmt::skip]\npub const ROOT_FORMATS: LocaleFormats = "
        f"LocaleFormats {{\n    {root},\n}};\n",
        *constants,
        called("The formats of locales in `latn`.", "LOCALE_FORMATS", "LocaleFormats", "locales",
               [f"{padded(tag)} {' '.join(map(str, fields))}" for tag, fields in formats.locales]),
        called("The formats that locales have in other numbering systems.", "FORMATS_BY_SYSTEM", "SystemFormats",
               "in_system", others),
        called("The numbering systems in which locales have formats of their own.", "FORMAT_SYSTEMS", "FormatSystem",
               "systems", systems)])


def is_spaced(character):
    """Whether a space separates a currency from a digit that is beside this character of it."""
    return "false" if unicodedata.category(character)[0] in "SZ" else "true"


def currency_rows(data, tags, code):
    """The symbols of a currency in root, and the rows of other symbols and of patterns."""
    root = data.symbols.get(("und", code), (code, code))
    symbols = listed_tags(tags, lambda tag: own(data.symbols, tag, code) or root, lambda tag: root)
    patterns = listed_tags(tags, lambda tag: own(data.overrides, tag, code), lambda tag: None)
    return root, symbols, patterns


def currency_table(data, tags, formats):
    codes = sorted({code for _, code in data.symbols} | set(data.digits) | {code for _, code in data.overrides})
    found = {code: currency_rows(data, tags, code) for code in codes}
    pairs = [pair for root, symbols, _ in found.values() for pair in [root, *dict(symbols).values()]]
    texts = sorted({text for pair in pairs for text in pair})
    pool, index = Texts(texts), {text: at for at, text in enumerate(texts)}
    currencies, symbols, overrides = [], [], []
    for code, (root, own_symbols, own_patterns) in found.items():
        digits, cash_digits, increment, cash_increment = data.digits.get(code, ("2", "2", "0", "0"))
        assert increment == "0"
        currencies.append(f"{padded(code.lower())} {digits} {cash_digits} {cash_increment} {index[root[0]]} "
                          f"{index[root[1]]} {len(symbols)} {len(symbols) + len(own_symbols)} {len(overrides)} "
                          f"{len(overrides) + len(own_patterns)}")
        symbols += [f"{padded(tag)} {index[pair[0]]} {index[pair[1]]}" for tag, pair in own_symbols]
        overrides += [f"{padded(tag)} {formats.override(fields)}" for tag, fields in own_patterns]
    shown = [f"{pool.numbers(text)} {is_spaced(text[0])} {is_spaced(text[-1])}" for text in texts]
    return "\n".join([
        head("The currencies.", CURRENCY_HEAD),
        called("The currencies, by their codes in lower case.", "CURRENCIES", "Currency", "currencies", currencies),
        called("The symbols that currencies have in locales.", "CURRENCY_SYMBOLS", "LocaleCurrency", "symbols",
               symbols),
        called("The patterns that currencies have in locales.", "OVERRIDES_BY_CURRENCY", "LocaleOverride", "overrides",
               overrides),
        called("The texts of symbols.", "CURRENCY_TEXTS", "CurrencyText", "texts", shown),
        pool.array("The bytes of symbols.", "CURRENCY_BYTES")])


def compact_table(formats):
    blocks = list(dict.fromkeys(block for it in formats.compact.all for block in it))
    pattern_lists = list(dict.fromkeys(patterns for block in blocks for _, _, patterns in block))
    affixes = [text for patterns in pattern_lists for it in patterns for text in it[2:4]]
    pool = Texts([part for text in affixes for part in text.split("\u00a4")]
                 + [part for unit in formats.units.all for pattern in unit for part in pattern.split("{0}")])

    def form(kind, last):
        return "SignLast" if last else {"number": "Number", "literal": "Literal", "absent": "Plain"}[kind]

    def affix(text):
        return " ".join(pool.numbers(part) for part in text.split("\u00a4")) if text else ""

    def exponents_of(block):
        """The exponents of the magnitudes 3 to 19: that of the last pattern that begins at or below it, or 0."""
        return tuple(([exponent for first, exponent, _ in block if first <= magnitude] or [0])[-1]
                     for magnitude in range(3, 20))

    ranges, patterns, runs, block_rows, exponents = {}, [], [], {}, Indices()
    for it in pattern_lists:
        shown = [f"{COUNTS[count]} {form(kind, last)} [{affix(prefix)}] [{affix(suffix)}]"
                 for count, kind, prefix, suffix, last in it]
        ranges[it] = f"{len(patterns)} {len(patterns) + len(shown)}"
        patterns += shown
    for block in blocks:
        block_rows[block] = f"{exponents.of(exponents_of(block))} {len(runs)} {len(runs) + len(block)}"
        runs += [f"{first} {ranges[it]}" for first, _, it in reversed(block)]
    units = [" ".join(pool.numbers(part) for pattern in unit for part in pattern.split("{0}"))
             for unit in formats.units.all]
    return "\n".join([
        head("The compact patterns of locales.", COMPACT_HEAD),
        called("The compact patterns of locales, as rows of the next two tables.", "COMPACT_SETS", "CompactSet", "sets",
               [" ".join(block_rows[block] for block in it) for it in formats.compact.all]),
        array("The powers of ten by which numbers are divided, for the magnitudes 3 to 19.", "COMPACT_EXPONENTS",
              "[u8; 17]", [f"    [{', '.join(map(str, it))}],\n" for it in exponents.all]),
        called("The magnitudes that have the same patterns, from the highest down.", "COMPACT_RUNS", "CompactRun",
               "runs", runs),
        called("The patterns of these magnitudes.", "COMPACT_PATTERNS", "CompactPattern", "patterns", patterns),
        called("The patterns of percent in compact notation.", "PERCENT_UNITS", "PercentUnit", "units", units),
        pool.array("The bytes of these patterns.", "COMPACT_BYTES")])


def number_tables(tags):
    """The text of each file."""
    data = Data()
    formats = Formats(data, tags)
    currencies = currency_table(data, tags, formats)
    return {"formats.rt": formats_table(formats), "currencies.rt": currencies, "compact.rt": compact_table(formats)}
