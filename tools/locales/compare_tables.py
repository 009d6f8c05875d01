"""Compares what the tables of numbers say with the files that their data were made from, or those of this folder."""
import os
import re
import sys

from number_tables import (COUNTS, EXPONENTS, PERCENT_SIGNS, PERMILLE_SIGNS, PIECES, SEPARATORS, STYLES, canonical,
                           is_spaced)
from table_text import SOURCES, path, rows

NAMES = {value: key for names in (PIECES, COUNTS) for key, value in names.items()}


# ---- The tables, as they are in the source.


def words(text):
    return re.findall(r'b"[^"]*"|[\w]+|[\[\]]', text)


def table(text, name):
    """The rows of a table, as lists of words."""
    body = re.search(rf"static {name}: .*?[\[{{]\n(.*?)\n[\]}}];", text, re.S)[1]
    separator = next(it for it in (";", "},\n", "],\n") if it in body)
    return [words(row) for row in body.split(separator) if row.strip()]


def pool(text, name):
    body = re.search(rf'static {name}: .*? = \*b"(.*?)";', text, re.S)[1].replace("\\\n", "")
    return re.sub(rb"\\x(..)", lambda it: bytes([int(it[1], 16)]), body.encode())


def tag_of(word):
    return word[2:-1].strip()


class Tables:
    """What the source of the tables says, by the look-ups of the crate."""

    def __init__(self):
        def read(name):
            with open(os.path.join(SOURCES, name), encoding="utf-8") as file:
                return file.read()

        formats, currency, compact = map(read, ("formats.rt", "currencies.rt", "compact.rt"))
        self.affixes = {name: "".join(NAMES.get(it, "") for it in re.findall(r": (\w+)", pieces))
                        for name, pieces in re.findall(r"const (A\d+): Affix = Affix \{(.*)\};", formats)}
        self.patterns = [tuple([self.affixes[it] for it in row[:6]] + row[6:]) for row in table(formats, "PATTERNS")]
        separators = {value: key for key, value in SEPARATORS.items()}
        self.overrides = [(int(row[2]), separators[row[5]], separators[row[8]])
                          for row in table(formats, "CURRENCY_OVERRIDES")]
        self.money = [self.money_of(row, separators) for row in table(formats, "MONEY_FORMATS")]
        signs = [{value: key for key, value in names.items()} for names in (EXPONENTS, PERCENT_SIGNS, PERMILLE_SIGNS)]
        self.signs = [tuple(names[it] for names, it in zip(signs, row[2::3], strict=True))
                      for row in table(formats, "NUMBER_SIGNS")]
        self.root = [int(it) for it in re.findall(r": (\d+)", re.search(r"ROOT_FORMATS.*?\{(.*?)\}", formats, re.S)[1])]
        self.locales = {tag_of(row[0]): [int(it) for it in row[1:]] for row in table(formats, "LOCALE_FORMATS")}
        others = [(tag_of(row[0]), self.options(row[1:])) for row in table(formats, "FORMATS_BY_SYSTEM")]
        roots = {name: self.options(words(it)[2:]) for name, it in
                 re.findall(r"const (ROOT_\d+): SystemFormats = SystemFormats \{\n(.*?)\n\};", formats)}
        self.systems = {tag_of(row[0]): (dict(others[int(row[1]):int(row[2])]), roots[row[3]])
                        for row in table(formats, "FORMAT_SYSTEMS")}
        self.currencies = {tag_of(row[0]).upper(): [int(it) for it in row[1:]] for row in table(currency, "CURRENCIES")}
        self.symbols = [(tag_of(row[0]), (int(row[1]), int(row[2]))) for row in table(currency, "CURRENCY_SYMBOLS")]
        self.by_currency = [(tag_of(row[0]), int(row[1])) for row in table(currency, "OVERRIDES_BY_CURRENCY")]
        texts = pool(currency, "CURRENCY_BYTES")
        self.texts = [(texts[int(row[0]):int(row[1])].decode(), row[2], row[3])
                      for row in table(currency, "CURRENCY_TEXTS")]
        self.bytes = pool(compact, "COMPACT_BYTES")
        self.sets = [[int(it) for it in row] for row in table(compact, "COMPACT_SETS")]
        self.exponents = [[int(it) for it in row if it.isdigit()] for row in table(compact, "COMPACT_EXPONENTS")]
        self.runs = [[int(it) for it in row] for row in table(compact, "COMPACT_RUNS")]
        self.compact = [self.compact_of(row) for row in table(compact, "COMPACT_PATTERNS")]
        self.units = [[self.text(*map(int, row[at:at + 2])) for at in range(0, 8, 2)]
                      for row in table(compact, "PERCENT_UNITS")]

    @staticmethod
    def options(found):
        """Indices: `None`, or `Some` and a number."""
        found = [it for it in found if it.isdigit() or it == "None"]
        return [None if it == "None" else int(it) for it in found]

    @staticmethod
    def money_of(row, separators):
        text = " ".join(row)
        found = [re.search(rf"{name} (?:None|Some MoneySeparator (\w+))", text)[1] for name in ("decimal", "grouping")]
        replaced = re.search(r"replaced (?:None|Some (\d+))", text)[1]
        return (*[separators.get(it, "") for it in found], None if replaced is None else int(replaced))

    def text(self, start, end):
        return self.bytes[start:end].decode()

    def compact_of(self, row):
        text = " ".join(row)
        affixes = []
        for numbers in re.findall(r"\[([^]]*)\]", text):
            parts = [self.text(*map(int, pair)) for pair in re.findall(r"(\d+) (\d+)", numbers)]
            affixes.append("\u00a4".join(parts))
        kind = {"Number": "number", "SignLast": "number", "Literal": "literal", "Plain": "absent"}[row[1]]
        return NAMES[row[0]], kind, *affixes, "last" if row[1] == "SignLast" else ""

    def formats(self, tag, system):
        latin = next((self.locales[it] for it in path(tag) if it in self.locales), self.root)
        rows_of, root = self.systems.get(system, ({}, [None] * 5))
        mine = next((rows_of[it] for it in path(tag) if it in rows_of), [None] * 5)
        chosen = [next(it for it in each if it is not None) for each in zip(mine, root, latin)]
        return (*chosen, *latin[5:])

    def currency(self, tag, system, code, accounting):
        """The affixes, the separators and the sizes."""
        formats = self.formats(tag, system)
        decimal, grouping, override = self.money[formats[6]]
        listed = self.currencies.get(code)
        if listed:
            rows_of = dict(self.by_currency[listed[7]:listed[8]])
            override = next((rows_of[it] for it in path(tag) if it in rows_of), override)
        index = formats[2 if accounting else 1]
        if override is not None:
            index, decimal, grouping = self.overrides[override]
        pattern = self.patterns[index]
        return *pattern[:6], decimal, grouping, *pattern[6:]

    def symbol_pair(self, tag, code):
        listed = self.currencies[code]
        rows_of = dict(self.symbols[listed[5]:listed[6]])
        return tuple(self.texts[it][0] for it in
                     next((rows_of[it] for it in path(tag) if it in rows_of), (listed[3], listed[4])))

    def block(self, index, style):
        """The patterns of each magnitude from 3 to 19 with its exponent, without repetition."""
        row, start, end = self.sets[index][3 * style:3 * style + 3]
        found, last = {}, (0, ())
        for magnitude, exponent in enumerate(self.exponents[row], 3):
            patterns = next((range(*run[1:]) for run in self.runs[start:end] if run[0] <= magnitude), ())
            if (exponent, patterns) != last:
                found[magnitude] = exponent, tuple(self.compact[it] for it in patterns)
            last = exponent, patterns
        return found


# ---- The files.


def columns(name, folder):
    """The names of the columns of a file, which are in its last comment."""
    with open(os.path.join(folder, name), encoding="utf-8") as file:
        comment = [line for line in file if line.startswith("#")][-1]
    return re.split("\t|, ", comment.strip())


class Files:
    """What the files say, by the look-ups that their README describes."""

    def __init__(self, folder):
        def keyed(name, keys):
            return {(row[0].lower(), *row[1:keys]): tuple(row[keys:]) for row in rows(name, folder)}

        self.percent, self.currency_rows = keyed("percent.tsv", 2), keyed("currency.tsv", 3)
        self.overrides, self.region = keyed("currency_overrides.tsv", 2), keyed("currency_locale_overrides.tsv", 1)
        self.symbols, self.digits = keyed("currency_symbols.tsv", 2), keyed("currency_digits.tsv", 1)
        self.signs, self.units = keyed("scientific.tsv", 2), keyed("percent_unit.tsv", 2)
        names = columns("scientific.tsv", folder)
        # The files that the data were made from have no permille sign.
        signs = ["percent sign", "permille sign"][:1 + ("permille sign" in names)]
        self.sign_columns = [0, *(names.index(it) - 2 for it in signs)]
        self.compact = {}
        for name in ("compact.tsv", "compact_currency.tsv"):
            for tag, system, style, magnitude, *pattern in rows(name, folder):
                block = self.compact.setdefault((tag.lower(), system, name, style), {})
                block.setdefault(int(magnitude), []).append(pattern)

    @staticmethod
    def find(found, tag, *key):
        return next((found[it, *key] for it in [*path(canonical(tag)), "und"] if (it, *key) in found), None)

    def in_system(self, found, tag, system, *key):
        return self.find(found, tag, system, *key) or self.find(found, tag, "latn", *key)

    def currency(self, tag, system, code, accounting):
        sign = "accounting" if accounting else "standard"
        row = self.in_system(self.currency_rows, tag, system, sign)
        money = self.find(self.currency_rows, tag, "latn", sign)
        row = (*row[:6], row[6] or money[6], row[7] or money[7], *row[8:])
        region = self.find(self.region, tag)
        return self.find(self.overrides, tag, code) or (region and region[1:]) or row

    def block(self, tag, system, name, style):
        found = self.find(self.compact, tag, system, name, style) or self.find(self.compact, tag, "latn", name, style)
        shown = {}
        for magnitude, patterns in sorted(found.items()):
            exponents = [int(pattern[1]) for pattern in patterns if pattern[2] != "absent"]
            run = (exponents[0] if exponents else 0, tuple(
                (count, kind, prefix, suffix, "last" if negative else "")
                for count, _, kind, prefix, suffix, negative in patterns))
            if not shown or shown[max(shown)] != run:
                shown[magnitude] = run
        return shown


def compare(folder):
    """Compares what both say of each tag, each numbering system and each currency; exits with the first differences."""
    tables, files, wrong = Tables(), Files(folder), []
    tags = sorted({row[0].lower() for row in rows("symbols.tsv")} - {"root"}) + ["und"]
    systems = [row[0] for row in rows("systems.tsv")]
    codes = sorted({code for _, code in [*files.symbols, *files.overrides]} | {code.upper() for code, in files.digits})
    blocks, count = {}, 0

    def same(ours, theirs, *where):
        nonlocal count
        count += 1
        if ours != theirs:
            wrong.append((*where, ours, theirs))

    for tag in tags:
        for system in systems:
            formats = tables.formats(tag, system)
            same(tables.patterns[formats[0]], files.in_system(files.percent, tag, system), tag, system, "percent")
            signs = files.in_system(files.signs, tag, system)
            same(tables.signs[formats[3]][:len(files.sign_columns)], tuple(signs[it] for it in files.sign_columns), tag,
                 system, "signs")
            for accounting in (False, True):
                for code in ("XXX", "EUR"):
                    same(tables.currency(tag, system, code, accounting), files.currency(tag, system, code, accounting),
                         tag, system, code)
            for style, key in enumerate(STYLES):
                ours = blocks.setdefault((formats[4], style), None) or tables.block(formats[4], style)
                blocks[formats[4], style] = ours
                at = (canonical(tag) if system != "laoo" or tag.startswith("lo") else "", tag, system, key)
                theirs = blocks.get(at) or files.block(tag, system, *key)
                blocks[at] = theirs
                same(ours, theirs, tag, system, key)
        unit = tables.units[tables.formats(tag, "latn")[5]]
        for category, (prefix, suffix) in (("one", unit[:2]), ("other", unit[2:])):
            theirs = files.find(files.units, tag, category) or files.find(files.units, tag, "other") or ("{0}%",)
            same(f"{prefix}{{0}}{suffix}", theirs[0], tag, "unit", category)
        for code in codes:
            same(tables.symbol_pair(tag, code), files.find(files.symbols, tag, code) or (code, code), tag, code)
            for accounting in (False, True):
                key = tag, "latn", code, accounting
                same(tables.currency(*key), files.currency(*key), tag, code)
    for code in codes:
        digits, cash, increment, cash_increment = files.digits.get((code.lower(),), "2200")[:4]
        same([str(it) for it in tables.currencies[code][:3]], [digits, cash, cash_increment], code, "digits")
        same(increment, "0", code, "increment")
    same(set(tables.currencies), set(codes), "codes")
    for text, before, after in tables.texts:
        same((before, after), (is_spaced(text[0]), is_spaced(text[-1])), text)
    for it in wrong[:10]:
        print(*map(ascii, it), file=sys.stderr)
    print(f"{count - len(wrong)} agree, {len(wrong)} differ")
    if wrong:
        sys.exit(1)
