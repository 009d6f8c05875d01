#!/usr/bin/env python3
"""Chooses rows of tests/rows from texts of `Intl.NumberFormat` in locales other than `en`:

    python3 tools/locales/choose_vectors.py TEXTS [LIMIT] > tests/rows/node_systems.tsv

TEXTS has rows of a locale, options as JSON by the names of ECMA-402, a number and its text. Rows are those of the style
`decimal` in the notation `standard`. For each numbering system with its symbols, as symbols.tsv has them, there are
LIMIT rows at most, 160 by default, the first of which have each set of names of options.
"""
import collections
import json
import sys

from table_text import rows

NAMES = ["minimumIntegerDigits", "minimumFractionDigits", "maximumFractionDigits", "minimumSignificantDigits",
         "maximumSignificantDigits", "roundingIncrement", "roundingPriority", "roundingMode", "trailingZeroDisplay",
         "signDisplay", "useGrouping"]
GROUPINGS = {True: "always", False: "false", "true": "always"}


def words(options):
    values = {name: options[name] for name in NAMES if name in options}
    if "useGrouping" in values:
        values["useGrouping"] = GROUPINGS.get(values["useGrouping"], values["useGrouping"])
    return " ".join(f"{name}={value}" for name, value in values.items())


def chosen(path, limit):
    """The rows, by symbols."""
    symbols = {f"{tag}-u-nu-{system}": (system, *fields) for tag, system, _, *fields in rows("symbols.tsv")}
    symbols.update({tag: (system, *fields) for tag, system, default, *fields in rows("symbols.tsv") if default})
    first, others, forms = collections.defaultdict(list), collections.defaultdict(list), set()
    with open(path, encoding="utf-8") as file:
        for line in file:
            if line.startswith("#"):
                continue
            tag, options, number, text = line.rstrip("\n").split("\t")
            options = json.loads(options)
            if tag.split("-u-")[0] == "en" or tag not in symbols or options.get("style", "decimal") != "decimal" \
                    or options.get("notation", "standard") != "standard":
                continue
            key = symbols[tag]
            form = (key, *sorted(options))
            (others if form in forms else first)[key].append((tag, words(options), number, text))
            forms.add(form)
    for key in first:
        yield from (first[key] + others[key])[:limit]


if __name__ == "__main__":
    print("# Made by `python3 tools/locales/choose_vectors.py TEXTS`, of texts of node 20.20.2 with CLDR 48, under "
          "the license in tools/locales/LICENSE.")
    for row in chosen(sys.argv[1], int(sys.argv[2]) if sys.argv[2:] else 160):
        print("\t".join(row))
