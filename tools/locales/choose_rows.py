#!/usr/bin/env python3
"""Chooses rows of `node.js vectors`:

    node tools/locales/node.js vectors | python3 tools/locales/choose_rows.py > tests/rows/node_locales.tsv

Of texts it prints rows of one locale for each pair of a numbering system and symbols in symbols.tsv: those of the
strategy `auto`, and of each other strategy those with another text. Of plural categories it prints for each language
the first row of each category, and for one language of each text of rules eight rows of each.
"""
import collections
import os
import sys


def rows(name):
    with open(os.path.join(os.path.dirname(os.path.abspath(__file__)), name), encoding="utf-8") as file:
        return [line.rstrip("\n").split("\t") for line in file if not line.startswith("#")]


locales, languages = {}, {}
for tag, system, is_default, *fields in rows("symbols.tsv"):
    if tag not in ("root", "en-US-posix"):
        locales.setdefault((system, *fields), tag if is_default else f"{tag}-u-nu-{system}")
for kind, tag, rules in rows("plural_rules.tsv"):
    if tag != "root":
        languages.setdefault(rules, (tag, kind))
print("# Made by `node tools/locales/node.js vectors | python3 tools/locales/choose_rows.py`, with node 20.20.2, "
      "ICU 78.2 and CLDR 48, under the license in tools/locales/LICENSE.")
tags, first, auto, count = set(locales.values()), set(languages.values()), {}, collections.Counter()
for row in sys.stdin:
    tag, kind, number, text = row.rstrip("\n").split("\t")
    if kind in ("cardinal", "ordinal"):
        count[tag, kind, text] += 1
        chosen = count[tag, kind, text] <= (8 if (tag, kind) in first else 1)
    else:
        chosen = tag in tags and (auto.setdefault((tag, number), text) != text or kind == "auto")
    if chosen:
        sys.stdout.write(row)
