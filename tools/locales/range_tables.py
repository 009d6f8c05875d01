"""The tables of ranges of numbers: the plural categories of ranges by language, and their texts by locale."""
from number_tables import ALIASES
from table_text import SKIP, Lists, array, head, path, rows

SEPARATORS = {
    "-": "Hyphen", " - ": "SpacedHyphen", "\u2012": "FigureDash", "\u2013": "EnDash", " \u2013 ": "SpacedEnDash",
    "\u2009\u2013\u2009": "ThinSpacedEnDash", "\u2014": "EmDash", "~": "Tilde", "\uff5e": "FullwidthTilde",
}
SIGNS = {
    "~": "Tilde", "\u223c": "TildeOperator", "\u2243": "AsymptoticallyEqual", "\u2248": "AlmostEqual", "-": "Hyphen",
    "\u7d04": "Yaku", "ca.": "Circa", "d\xe1\xe0\u1e63\xec": "Daasi", "d\xe1\xe0sh\xec": "Daashi",
}
PLURAL_RANGES_HEAD = """use super::rows::TableRange;
use super::rows::plurals::{RangeCategory, RangeLanguage};
use plural_rules::PluralCategory::*;
"""
RANGES_HEAD = """use super::rows::TableRange;
use super::rows::ranges::{
    ApproximatelySign, LocaleRange, RangeFormat, RangeSeparator, RangeSystem,
};

macro_rules! ranges {
    ($($tag:literal $separator:ident $approximately:ident;)*) => {
        [$(LocaleRange {
            tag: *$tag,
            format: RangeFormat {
                separator: RangeSeparator::$separator,
                approximately: ApproximatelySign::$approximately,
            },
        }),*]
    };
}
"""


def row_text(start, end, category):
    return f"    RangeCategory {{ start: {start.title()}, end: {end.title()}, category: {category.title()} }},\n"


def plural_range_tables():
    """The text of plural_ranges.rt. An alias of a language has the rows of the language."""
    listed = {}
    for language, *categories in rows("plural_ranges.tsv"):
        listed.setdefault(language, []).append(row_text(*categories))
    for alias, tag in ALIASES.items():
        language = tag.partition("-")[0]
        if "-" not in alias and language in listed:
            listed[alias] = listed[language]
    categories = Lists()
    languages = [f'    RangeLanguage {{ tag: *b"{language:16}", ranges: {categories.range(listed[language])} }},\n'
                 for language in sorted(listed)]
    return "\n".join([head("The plural categories of ranges of numbers.", PLURAL_RANGES_HEAD),
                      array("The languages that have categories of ranges.", "RANGE_LANGUAGES", "RangeLanguage",
                            languages),
                      categories.array("The categories of ranges.", "RANGE_CATEGORIES", "RangeCategory")])


def range_tables():
    """The text of ranges.rt. An alias has the row of the longest listed tag that is a prefix of what it means."""
    listed = {}
    for tag, system, pattern, sign in rows("ranges.tsv"):
        listed.setdefault(system, {})[tag.lower()] = f"{SEPARATORS[pattern[3:-3]]} {SIGNS[sign]}"
    for found in listed.values():
        for alias, tag in ALIASES.items():
            rows_of = [found[it] for it in path(tag) if it in found]
            if rows_of and rows_of[0] != next((found[it] for it in path(alias) if it in found), None):
                found[alias] = rows_of[0]
    root = listed["latn"].pop("und")

    def list_of(title, name, found):
        items = [f'    b"{tag:16}" {row};\n' for tag, row in found]
        return f"/// {title}\n{SKIP}pub static {name}: [LocaleRange; {len(items)}] = ranges! {{\n{''.join(items)}}};\n"

    others, systems = [], []
    for system in sorted(set(listed) - {"latn"}):
        rows_of = sorted(listed[system].items())
        systems.append(f'    RangeSystem {{ name: *b"{system:16}", rows: TableRange({len(others)}, '
                       f"{len(others) + len(rows_of)}) }},\n")
        others += rows_of
    separator, sign = root.split()
    return "\n".join([head("The texts of ranges of numbers.", RANGES_HEAD),
                      "/// The texts of root.\n"
                      "pub const ROOT_RANGE: RangeFormat = RangeFormat {\n"
                      f"    separator: RangeSeparator::{separator},\n"
                      f"    approximately: ApproximatelySign::{sign},\n}};\n",
                      list_of("The locales with other texts than the locale that their tags begin with.",
                              "LOCALE_RANGES", sorted(listed["latn"].items())),
                      list_of("The locales that have texts of their own in a numbering system.", "RANGES_BY_SYSTEM",
                              others),
                      array("The numbering systems in which locales have texts of their own.", "RANGE_SYSTEMS",
                            "RangeSystem", systems)])
