#!/usr/bin/env python3
"""Writes the tables of crates/locale_data/src/tables from the files of data in this folder.

`tools/locales/make_tables.py` writes the files, `tools/locales/make_tables.py --check` fails if they would change. With
a folder after `--check` it also compares what the tables say of every tag and numbering system with the rows of the
files there, which are those that the data were made from, or those of tools/locales. A locale is listed unless it has
the same data as the longest listed tag before one of its hyphens.
"""
import re
import sys
import unicodedata

from compare_tables import compare
from number_tables import number_tables
from range_tables import plural_range_tables, range_tables
from table_text import SKIP, SOURCES, Lists, Texts, array, head, listed_tags, rows, write_or_compare

SYMBOLS = {
    ".": "Period", ",": "Comma", "\u00a0": "NoBreakSpace", "\u202f": "NarrowNoBreakSpace", "\u2019": "RightQuote",
    "\u060c": "ArabicComma", "\u2e41": "ReversedComma", "\u066b": "ArabicDecimal", "\u066c": "ArabicThousands",
    "-": "Hyphen", "\u2212": "Minus", "+": "Plus", "\u061c-": "ArabicHyphen", "\u061c\u2212": "ArabicMinus",
    "\u061c+": "ArabicPlus", "\u200e-": "LeftHyphen", "\u200e\u2212": "LeftMinus", "\u200e+": "LeftPlus",
    "'": "Apostrophe", "\u200f-": "RightHyphen", "\u200f+": "RightPlus", "\u200e-\u200e": "EnclosedHyphen",
    "\u200e\u2212\u200e": "EnclosedMinus", "\u200e+\u200e": "EnclosedPlus", "+\u200e": "PlusLeft",
}
# Tags that have the symbols of root: `und`, and the names of a shell's locales without a language, as `C.UTF-8`.
ROOT_TAGS = ("c", "posix", "und")
# The names of group sizes: primary, secondary, minimum grouping digits.
SIZES = {
    ("3", "0", "1"): "THREES",
    ("3", "0", "2"): "THREES_MIN_2",
    ("3", "0", "3"): "THREES_MIN_3",
    ("3", "2", "1"): "THREE_AND_TWOS",
    ("2", "0", "1"): "TWOS",
    ("0", "0", "1"): "NO_GROUPS",
}
SYMBOLS_HEAD = """use super::rows::TableRange;
use super::rows::symbols::Symbol::*;
use super::rows::symbols::{DecimalSystem, LocaleSymbols, SymbolSet};
use decimal_format::GroupingSizes;
"""
PLURALS_HEAD = """use super::rows::TableRange;
use super::rows::plurals::{LanguageRules, RelationRow, RuleRow, RuleSet};
use plural_rules::Operand::*;
use plural_rules::PluralCategory::*;
use plural_rules::Range;
"""


def size_text(sizes, name):
    fields = ", ".join(map(": ".join, zip(("primary", "secondary", "min_grouping"), sizes)))
    return SKIP + f"const {name}: GroupingSizes = GroupingSizes {{ {fields} }};\n"


def set_text(symbols, name):
    fields = ", ".join(f"{field}: {SYMBOLS[text]}" for field, text in
                       zip(("decimal", "grouping", "minus", "plus"), symbols))
    return SKIP + f"const {name}: SymbolSet = SymbolSet {{\n    {fields},\n}};\n"


def digit_text(digit):
    """The digit as code, with an escape if it is written from right to left."""
    return f"'\\u{{{ord(digit):x}}}'" if unicodedata.bidirectional(digit) in ("R", "AL", "AN") else f"'{digit}'"


def system_text(name, digits, own, rows):
    listed = [digit_text(digit) for digit in digits]
    lines = [", ".join(listed)] if len(", ".join(listed)) <= 100 else [", ".join(listed[:5]), ", ".join(listed[5:])]
    shown = "".join(f"            {line},\n" for line in lines)
    own = f"Some({own})" if own else "None"
    return (f'    DecimalSystem {{\n        name: *b"{name:16}",\n        digits: [\n{shown}        ],\n'
            f"        symbols: {own},\n        rows: TableRange({rows[0]}, {rows[1]}),\n    }},\n")


def fields_of(symbols):
    """For each tag its default system; for each tag and system the symbols and the sizes; the symbols of root."""
    default, fields = {}, {}
    for tag, system, is_default, *rest in symbols:
        fields[tag.lower(), system] = (tuple(rest[:4]), tuple(rest[4:]))
        if is_default:
            default[tag.lower()] = system
    del default["root"]
    for tag in ROOT_TAGS:
        default[tag], fields[tag, "latn"] = "latn", fields["root", "latn"]
    own = {system: fields["root", system][0] for tag, system in fields if tag == "root" and system != "latn"}
    return default, {key: value for key, value in fields.items() if key[0] != "root"}, own


def symbol_tables():
    """The text of symbols.rt."""
    default, fields, own = fields_of(rows("symbols.tsv"))
    numbers = {name: number for number, (name, _) in enumerate(rows("systems.tsv"))}
    sets = {}

    def set_name(symbols, name):
        return sets.setdefault(symbols, name.upper().replace("-", "_"))

    def row_text(tag, system, symbols, sizes):
        name = set_name(symbols, tag if fields[tag, "latn"][0] == symbols else f"{tag}_{system}")
        return (f'    LocaleSymbols {{ tag: *b"{tag:16}", system: {numbers[system]}, '
                f"symbols: {name}, sizes: {SIZES[sizes]} }},\n")

    locales = listed_tags(default, lambda tag: (default[tag], *fields[tag, "latn"]), lambda tag: None)
    others, ranges = [], {}
    for system in sorted({system for _, system in fields if system != "latn"}):
        usual = {tag: (own.get(system, fields[tag, "latn"][0]), fields[tag, "latn"][1]) for tag in default}
        found = listed_tags(default, lambda tag: fields.get((tag, system), usual[tag]), usual.get)
        ranges[system] = (len(others), len(others) + len(found))
        others += [(tag, (system, *data)) for tag, data in found]
    systems = [system_text(name, digits, own.get(name) and set_name(own[name], name), ranges.get(name, (0, 0)))
               for name, digits in rows("systems.tsv")]
    lists = [array("The decimal numbering systems.", "NUMBERING_SYSTEMS", "DecimalSystem", systems),
             array("The locales, each with its default numbering system.", "LOCALES", "LocaleSymbols",
                   [row_text(tag, *data) for tag, data in locales]),
             array("The locales that have symbols of their own in a numbering system.", "LOCALES_BY_SYSTEM",
                   "LocaleSymbols", [row_text(tag, *data) for tag, data in others])]
    constants = [size_text(*it) for it in SIZES.items()] + [set_text(*it) for it in sets.items()]
    title = "The numbering systems, and the locales with their symbols."
    return "\n".join([head(title, SYMBOLS_HEAD), *constants, *lists])


def relation_text(text, ranges):
    """The row of a relation."""
    operand, modulus, sign, listed = re.fullmatch("([a-z])(?: % (\\d+))? (!?=) (.+)", text).groups()
    ends = [(it.split("..")[0], it.split("..")[-1]) for it in listed.split(",")]
    range_text = ranges.range([f"    Range {{ low: {low}, high: {high} }},\n" for low, high in ends])
    return (f'    RelationRow {{ operand: {operand.upper().replace("E", "C")}, modulus: {modulus or 0}, '
            f'is_equal: {str(sign == "=").lower()}, ranges: {range_text} }},\n')


def rule_text(text, alternatives, relations, ranges):
    """The row of a rule."""
    category, condition = text.split(":")
    listed = [[relation_text(it, ranges) for it in part.split(" and ")]
              for part in condition.strip().split(" or ") if part]
    range_text = alternatives.range([f"    {relations.range(it)},\n" for it in listed])
    return f"    RuleRow {{ category: {category.title()}, alternatives: {range_text} }},\n"


def tried_rules(text):
    """Rules in the order in which they are tried.

    Only rules with the operand e overlap, where e is negative: ICU tries `many` before `one`.
    """
    return "; ".join(sorted(text.split("; "))) if re.search("\\be\\b", text) else text


def plural_tables():
    """The text of plurals.rt."""
    given = {}
    for kind, tag, text in rows("plural_rules.tsv"):
        given.setdefault(tag.lower(), {})[kind] = tried_rules(text) or "other:"
    listed, names = {}, {"other:": "OTHER"}
    for tag in sorted(given):
        parent = listed.get(tag.rpartition("-")[0], {})
        listed[tag] = {kind: given[tag].get(kind, parent.get(kind, "other:")) for kind in ("cardinal", "ordinal")}
        for kind, text in listed[tag].items():
            names.setdefault(text, (tag if kind == "cardinal" else f"{tag}_ordinal").upper().replace("-", "_"))
    texts, rules, *parts = Texts(names), Lists(), Lists(), Lists(), Lists()
    sets = {text: rules.range([rule_text(it, *parts) for it in text.split("; ")]) for text in names}
    constants = [f"{'pub ' if name == 'OTHER' else ''}const {name}: RuleSet = RuleSet {{ text: {texts.range(text)}, "
                 f"rules: {sets[text]} }};\n" for text, name in names.items()]
    items = [f'    LanguageRules {{ tag: *b"{tag:16}", cardinal: {names[kinds["cardinal"]]}, '
             f'ordinal: {names[kinds["ordinal"]]} }},\n' for tag, kinds in listed.items()]
    return "\n".join([head("The plural rules of languages.", PLURALS_HEAD), *(SKIP + it for it in constants),
                      array("The languages that have plural rules.", "PLURAL_RULES", "LanguageRules", items),
                      texts.array("The texts of plural rules.", "PLURAL_RULES_TEXTS"),
                      rules.array("The rules of the texts.", "PLURAL_RULE_ROWS", "RuleRow"),
                      parts[0].array("The alternatives of rules, as parts of `PLURAL_RELATIONS`.",
                                     "PLURAL_ALTERNATIVES", "TableRange"),
                      parts[1].array("The relations of alternatives.", "PLURAL_RELATIONS", "RelationRow"),
                      parts[2].array("The ranges of relations.", "PLURAL_RANGES", "Range")])


def tables():
    """The text of each file."""
    tags = {row[0].lower() for row in rows("symbols.tsv")} - {"root"}
    return {"symbols.rt": symbol_tables(), "plurals.rt": plural_tables(), "plural_ranges.rt": plural_range_tables(),
            "ranges.rt": range_tables(), **number_tables(tags)}


def main(words):
    write_or_compare(tables(), SOURCES, "tools/locales/make_tables.py", words)
    if words[1:]:
        compare(words[1])


if __name__ == "__main__":
    main(sys.argv[1:])
