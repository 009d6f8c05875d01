#!/usr/bin/env python3
"""Writes the tables of crates/locale_names/src/tables from the files of data in this folder.

`tools/units/make_tables.py` writes the files, `tools/units/make_tables.py --check` fails if they would change. A tag is
looked for in the data as it is, then without the part after its last hyphen, and so on, then as `und`. Units have rows
by width: for each of these tags first that of the width counts, then that of `short`. The tables have what is found: a
locale is listed unless it has the same data as the longest listed tag before one of its hyphens.
"""
import os
import sys

FOLDER = os.path.dirname(os.path.abspath(__file__))
sys.path.insert(0, os.path.join(FOLDER, "..", "locales"))

from number_tables import canonical  # noqa: E402
from table_text import CRATES, SKIP, array, byte_table, head, listed_tags, path, rows, write_or_compare  # noqa: E402

SOURCES = os.path.join(CRATES, "locale_names", "src", "tables")
SCRIPT = "tools/units/make_tables.py"
WIDTHS = ("long", "short", "narrow")
# The order of categories in the data, which is that of the numbers of categories in entries, and then `per`.
CATEGORIES = ("Other", "Zero", "One", "Two", "Few", "Many")
PER = len(CATEGORIES)
# The most bytes of a constant: the checker reads constants of at most 140,000 expressions.
PART = 2 ** 17
# Units that ECMA-402 sanctions, and those of their compounds that have patterns of their own, are in `units.tsv`.
UNITS_HEAD = """use super::rows::TextRange;
use super::rows::units::{Compound, UnitJoiner, UnitRow};

macro_rules! units {
    ($($name:literal $name_len:literal $unit_type:literal $type_len:literal $is_sanctioned:literal
       $is_compound:literal;)*) => {
        [$(UnitRow {
            name: TextRange { start: $name, len: $name_len },
            unit_type: TextRange { start: $unit_type, len: $type_len },
            is_sanctioned: $is_sanctioned,
            is_compound: $is_compound,
        }),*]
    };
}

macro_rules! joiners {
    ($($numerator_first:literal $before:literal $before_len:literal $between:literal $between_len:literal
       $after:literal $after_len:literal;)*) => {
        [$(UnitJoiner {
            numerator_first: $numerator_first,
            before: TextRange { start: $before, len: $before_len },
            between: TextRange { start: $between, len: $between_len },
            after: TextRange { start: $after, len: $after_len },
        }),*]
    };
}
"""
CURRENCIES_HEAD = """use super::rows::TextRange;
use super::rows::currencies::{CurrencyRow, NamePattern};
use plural_rules::PluralCategory::*;
"""
LOCALE_FIELDS = ("long", "short", "narrow", "long_joiner", "short_joiner", "narrow_joiner", "names", "name_patterns")
LOCALES_HEAD = """use super::rows::locales::LocaleNames;

macro_rules! locales {
    ($($tag:literal $long:literal $short:literal $narrow:literal $long_joiner:literal $short_joiner:literal
       $narrow_joiner:literal $names:literal $name_patterns:literal;)*) => {
        [$(LocaleNames {
            tag: *$tag,
            long: $long,
            short: $short,
            narrow: $narrow,
            long_joiner: $long_joiner,
            short_joiner: $short_joiner,
            narrow_joiner: $narrow_joiner,
            names: $names,
            name_patterns: $name_patterns,
        }),*]
    };
}
"""


def data(name):
    return rows(name, FOLDER)


def looked_for(tag, known):
    """The tags that are looked for in the data for a tag, as far as these have rows."""
    return [it for it in (*path(canonical(tag)), "und") if it in known]


def found(table, tags, *keys):
    """What a table has: of each tag the first of the keys."""
    return next((table[it, *key] for it in tags for key in keys if (it, *key) in table), None)


def by_width(table, tags, width, *key):
    return found(table, tags, (width, *key), ("short", *key))


class Pool:
    """A pool of texts, in one text: one that begins or ends another is a part of it."""

    def __init__(self, texts):
        self.starts, ends, kept = {}, {}, []
        for turn in (lambda it: it, lambda it: it[::-1]):
            turned = sorted(map(turn, texts if not ends else set(texts) - ends.keys()))
            for text, longer in zip(turned, [*turned[1:], ""]):
                if longer.startswith(text):
                    ends[turn(text)] = turn(longer)
        for text in sorted(set(texts) - ends.keys()):
            size = len(text.encode())
            if not kept or len(kept[-1]) + size > PART:
                kept.append(b"")
            self.starts[text] = (len(kept) - 1) * PART + len(kept[-1])
            kept[-1] += text.encode()
        self.parts, self.longer = kept, ends

    def start(self, text):
        """Where a text starts: the index of its part times `PART`, and its offset there."""
        if text not in self.starts:
            longer = self.longer[text]
            at = 0 if longer.startswith(text) else len(longer.encode()) - len(text.encode())
            self.starts[text] = self.start(longer) + at
        return self.starts[text]

    def range(self, text):
        """The start and the length of a text, as two words."""
        return f"{self.start(text)} {len(text.encode())}"

    def statics(self, title, name):
        """The parts as constants, one if there is one."""
        names = [f"{name}_{at}" for at in range(len(self.parts))] if len(self.parts) > 1 else [name]
        return "\n".join(byte_table(title, *it) for it in zip(names, self.parts))


class Runs:
    """A pool of lists of entries: each is a run of them, and the number of a run has its start and its length."""

    def __init__(self, lists):
        self.entries, self.starts = [], {(): 0}
        for entries in sorted(set(lists), key=lambda it: (-len(it), it)):
            if entries not in self.starts:
                for start in range(len(entries)):
                    for end in range(start + 1, len(entries) + 1):
                        self.starts.setdefault(entries[start:end], len(self.entries) + start)
                self.entries += entries

    def number(self, entries):
        assert len(entries) < 8
        return self.starts[entries] * 8 + len(entries)


def numbers(title, name, kind, values):
    """A table of numbers."""
    lines, line = [], ""
    for value in values:
        word = f"{value},"
        if len(line) + len(word) > 114:
            lines, line = [*lines, line], ""
        line += f" {word}" if line else word
    body = "".join(f"    {it}\n" for it in [*lines, line])
    return f"/// {title}\n{SKIP}pub static {name}: [{kind}; {len(values)}] = [\n{body}];\n"


def by_macro(title, name, kind, macro, lines):
    """A table of rows, which a macro makes of lines."""
    lines = list(lines)
    return f"/// {title}\n{SKIP}pub static {name}: [{kind}; {len(lines)}] = {macro}! {{\n{''.join(lines)}}};\n"


class Lists:
    """Lists of one length that several locales share, one after another."""

    def __init__(self):
        self.lists = {}

    def index(self, values):
        return self.lists.setdefault(tuple(values), len(self.lists))

    def values(self):
        return [value for values in self.lists for value in values]


def padded(cells, count):
    return (*cells, *[""] * (count - len(cells)))


def patterns_of(cells):
    """The patterns of cells in the order of `CATEGORIES`, each with its number; an empty cell is as the first."""
    return tuple((kind, cell) for kind, cell in enumerate(cells) if cell)


def joiner(pattern):
    """Whether the first of two units is written first in a pattern, and the texts before, between and after them."""
    is_first = pattern.index("{0}") < pattern.index("{1}")
    before, rest = pattern.split("{0}" if is_first else "{1}")
    return is_first, before, *rest.split("{1}" if is_first else "{0}")


class Units:
    """The patterns of units."""

    def __init__(self):
        sanctioned, others = data("units.tsv"), data("units_more.tsv")
        self.rows = {}
        for tag, width, unit, *cells in sanctioned + others:
            per, *texts = padded(cells, 1 + len(CATEGORIES))
            self.rows[tag.lower(), width, unit] = patterns_of((*texts, per))
        self.types = dict(data("unit_types.tsv"))
        self.names = sorted(self.types)
        self.sanctioned = {row[2] for row in sanctioned}
        self.joiners = {(tag.lower(), width): pattern for tag, width, pattern in data("unit_per.tsv")}
        self.joiner_rows = sorted(set(self.joiners.values()))
        self.tags = {key[0] for key in [*self.rows, *self.joiners]}
        texts = {pattern.replace("{0}", "") for row in self.rows.values() for _, pattern in row}
        self.pool = Pool(texts)
        self.runs, self.lists = Runs(map(self.entries, self.rows.values())), Lists()
        self.numbers = {row: self.runs.number(self.entries(row)) for row in set(self.rows.values())}
        joining = {text for row in self.joiner_rows for text in joiner(row)[1:]}
        self.short_texts = joining.union(self.names, self.types.values())

    def entries(self, row):
        return tuple(self.entry(*it) for it in row)

    def entry(self, kind, pattern):
        """The number of an entry: its text's start and length, the number's place, whether it has one, and its kind."""
        assert pattern.count("{0}") <= 1 and (kind != PER or "{0}" in pattern)
        before, number, after = pattern.partition("{0}")
        length = len((before + after).encode())
        assert length < 256
        place = len(before.encode())
        start = self.pool.start(before + after)
        return (((start * 256 + length) * 256 + place) * 256 + len(number) // 3) * 256 + kind

    def of(self, tag):
        """The indices of the lists of runs, and those of the patterns of two units, each by width."""
        tags = looked_for(tag, self.tags)
        lists = [self.lists.index(self.numbers[by_width(self.rows, tags, width, name)] for name in self.names)
                 for width in WIDTHS]
        return (*lists, *[self.joiner_rows.index(by_width(self.joiners, tags, width)) for width in WIDTHS])

    def unit_text(self, name, pool):
        flags = [str(it).lower() for it in (name in self.sanctioned, "-per-" in name)]
        return f"    {pool.range(name)} {pool.range(self.types[name])} {' '.join(flags)};\n"

    def compounds(self):
        for index, name in enumerate(self.names):
            numerator, _, denominator = name.partition("-per-")
            if denominator in self.types and numerator in self.types:
                yield self.names.index(numerator), self.names.index(denominator), index

    def joiner_text(self, pattern, pool):
        is_first, *texts = joiner(pattern)
        return f"    {str(is_first).lower()} {' '.join(map(pool.range, texts))};\n"

    def files(self, pool):
        compounds = [f"    Compound {{ numerator: {a}, denominator: {b}, unit: {c} }},\n"
                     for a, b, c in self.compounds()]
        return {"units.rt": "\n".join([
            head("Units, and their patterns.", UNITS_HEAD, SCRIPT),
            by_macro("The units of CLDR.", "UNITS", "UnitRow", "units",
                     [self.unit_text(it, pool) for it in self.names]),
            array("The pairs of units that have patterns of their own as one unit.", "COMPOUNDS", "Compound",
                  compounds),
            by_macro("The patterns of two units.", "UNIT_JOINERS", "UnitJoiner", "joiners",
                     [self.joiner_text(it, pool) for it in self.joiner_rows]),
            numbers("Lists of runs, one for each unit.", "UNIT_RUNS", "u32", self.lists.values()),
            numbers("The patterns of all runs.", "UNIT_ENTRIES", "u64", self.runs.entries)]),
            "unit_texts.rt": "\n".join([head("The texts of the patterns of units.", script=SCRIPT),
                                        self.pool.statics("A part of the texts.", "UNIT_TEXTS")])}


class Currencies:
    """The names of currencies."""

    def __init__(self):
        listed = data("currency_names.tsv")
        self.rows = {(tag.lower(), code): patterns_of(cells) for tag, code, *cells in listed}
        self.codes = sorted({row[1] for row in listed})
        self.patterns = {(row[0].lower(),): patterns_of(row[1:]) for row in data("currency_unit_patterns.tsv")}
        self.pattern_rows = Runs(self.patterns.values())
        self.tags = {key[0] for key in [*self.rows, *self.patterns]}
        self.short_texts = {joiner(pattern)[2] for _, pattern in self.pattern_rows.entries}
        self.pool = Pool({name for row in self.rows.values() for _, name in row})
        self.runs, self.lists = Runs(map(self.entries, self.rows.values())), Lists()
        self.numbers = {row: self.runs.number(self.entries(row)) for row in {(), *self.rows.values()}}

    def entries(self, row):
        return tuple(self.entry(*it) for it in row)

    def entry(self, kind, name):
        """The number of an entry: the start of its text, its length, and its category."""
        start, length = self.pool.start(name), len(name.encode())
        assert start < 2 ** 21 and length < 256
        return (start * 256 + length) * 8 + kind

    def of(self, tag):
        """The index of the list of runs, and the run of the patterns."""
        tags = looked_for(tag, self.tags)
        names = self.lists.index(self.numbers[found(self.rows, tags, (code,)) or ()] for code in self.codes)
        return names, self.pattern_rows.number(found(self.patterns, tags, ()))

    def pattern_text(self, kind, pattern, pool):
        is_first, _, between, _ = joiner(pattern)
        assert pattern in ("{1}" + between + "{0}", "{0}" + between + "{1}")
        start, length = pool.range(between).split()
        return (f"    NamePattern {{ category: {CATEGORIES[kind]}, number_first: {str(is_first).lower()}, "
                f"between: TextRange {{ start: {start}, len: {length} }} }},\n")

    def files(self, pool):
        codes = [f'    CurrencyRow {{ code: *b"{code.lower():16}" }},\n' for code in self.codes]
        patterns = [self.pattern_text(*it, pool) for it in self.pattern_rows.entries]
        return {"currencies.rt": "\n".join([
            head("The names of currencies, and their patterns.", CURRENCIES_HEAD, SCRIPT),
            array("The currencies that have a name in a locale.", "CURRENCY_CODES", "CurrencyRow", codes),
            array("The patterns of numbers with names.", "NAME_PATTERNS", "NamePattern", patterns),
            numbers("Lists of runs, one for each currency.", "NAME_RUNS", "u32", self.lists.values()),
            numbers("The names of all runs.", "NAME_ENTRIES", "u32", self.runs.entries)]),
            "currency_texts.rt": "\n".join([head("The texts of names of currencies.", script=SCRIPT),
                                            self.pool.statics("A part of the texts.", "NAME_TEXTS")])}


def locale_file(units, currencies):
    """The text of locales.rt."""
    aliases = {tag for tag in (row[0].lower() for row in rows("symbols.tsv")) if canonical(tag) != tag}

    def of(tag):
        return (*units.of(tag), *currencies.of(tag))

    def text(tag, values):
        return f'b"{tag:16}" {" ".join(map(str, values))};'

    usual = of("und")
    listed = listed_tags((aliases | units.tags | currencies.tags) - {"und"}, of, lambda tag: usual)
    fields = ", ".join(f"{field}: {value}" for field, value in zip(LOCALE_FIELDS, usual))
    root = (f"/// What a locale has that is not listed.\n{SKIP}pub const ROOT: LocaleNames = LocaleNames {{\n"
            f'    tag: *b"{"":16}",\n    {fields},\n}};\n')
    return "\n".join([head("What each locale has.", LOCALES_HEAD, SCRIPT),
                      by_macro("The locales.", "LOCALES", "LocaleNames", "locales",
                               [f"    {text(*it)}\n" for it in listed]),
                      root])


def tables():
    """The text of each file."""
    units, currencies = Units(), Currencies()
    pool = Pool(units.short_texts | currencies.short_texts)
    title = "Identifiers of units, and texts between a number and what it counts."
    short_texts = "\n".join([head(title, script=SCRIPT), pool.statics("The texts.", "SHORT_TEXTS")])
    return {"locales.rt": locale_file(units, currencies), "short_texts.rt": short_texts, **units.files(pool),
            **currencies.files(pool)}


if __name__ == "__main__":
    write_or_compare(tables(), SOURCES, SCRIPT, sys.argv[1:])
