#!/usr/bin/env python3
"""Runs ICU's own tests of number skeletons by the built `fixdec_lines`:

    python3 diff/icu_tests.py TESTS PROGRAM [-v]

TESTS is a folder with two files of ICU 72. numberpermutationtest.txt has skeletons, and below each of them locales and
the texts of 0, 91827.3645 and -0.22222. api.tsv has the cases of numbertest_api.cpp that have a skeleton: a locale, the
skeleton, a number and its text. PROGRAM is the path of `fixdec_lines`.

Prints for each file how many texts are equal, how many differ because CLDR 48 has other data than ICU 72, and how many
skeletons are not supported, by their stem. Each other difference and each other error is a line, with status 1. With -v
the texts that differ by data are lines too.
"""
import collections
import itertools
import os
import re
import subprocess
import sys

NUMBERS = ["0", "91827.3645", "-0.22222"]
# The tags that ICU writes otherwise.
TAGS = {"en-US-POSIX": "en-US-u-va-posix", "ar@numbers=arab": "ar-u-nu-arab", "root": "und"}
# The stems that are not supported, as docs/PROGRAMS.md lists them, in each file.
UNSUPPORTED = {
    "permutations": ["scale"],
    "api": ["scale", "precision-increment", "usage", "unit", "measure-unit", "per-measure-unit", "unit-width-formal",
            "unit-width-variant"],
}


def permutations(path):
    """Locales, skeletons, and the texts of NUMBERS."""
    skeleton, found = None, []
    with open(path, encoding="utf-8") as file:
        for line in file:
            line = line.rstrip("\n")
            if line.startswith("    "):
                found[-1][2].append(line[4:])
            elif line.startswith("  "):
                found.append((line[2:], skeleton, []))
            elif line and not line.startswith("#"):
                skeleton = line
    return [(tag, skeleton, list(zip(NUMBERS, texts, strict=True))) for tag, skeleton, texts in found]


def cases(path):
    """Locales, skeletons, and pairs of numbers and texts."""
    with open(path, encoding="utf-8") as file:
        rows = [line.rstrip("\n").split("\t") for line in file]
    return [(TAGS.get(tag, tag), skeleton, [row[2:] for row in group])
            for (tag, skeleton), group in itertools.groupby(rows, key=lambda row: tuple(row[:2]))]


def texts(program, tag, skeleton, numbers):
    """The texts of numbers, or the error."""
    # A skeleton of a space is one without stems.
    ran = subprocess.run([program, f"format:{tag}:{skeleton or ' '}"], input="".join(f"{it}\n" for it in numbers),
                         stdout=subprocess.PIPE, stderr=subprocess.PIPE, text=True)
    if ran.returncode:
        return ran.stderr.strip()
    return ran.stdout.split("\n")[:-1]


def has_other_data(tag, skeleton):
    """Whether CLDR 48 has another text than ICU 72, which has CLDR 42."""
    words = skeleton.split()
    is_compact = any(word.startswith("compact-") or word in ("K", "KK") for word in words)
    return tag == "es-MX" and is_compact or tag == "en-CA"


def run(name, rows, program, is_verbose):
    counts, stems, wrong = collections.Counter(), collections.Counter(), 0
    for tag, skeleton, pairs in rows:
        found = texts(program, tag, skeleton, [number for number, _ in pairs])
        if isinstance(found, str):
            stem = re.search("unsupported (.*)$", found)
            if stem and stem[1] in UNSUPPORTED[name]:
                stems[stem[1]] += len(pairs)
            else:
                wrong += 1
                print(f"{name}: {tag} {skeleton!r}: {found}")
            continue
        for (number, expected), text in zip(pairs, found, strict=True):
            is_data = text != expected and has_other_data(tag, skeleton)
            counts["equal" if text == expected else "other data" if is_data else "differ"] += 1
            if text != expected and (is_verbose or not is_data):
                print(f"{name}: {tag} {skeleton!r} {number}: here {text!r}, in ICU {expected!r}")
    print(f"{name}: {counts['equal']} equal, {counts['other data']} of other data, {counts['differ']} differ;",
          "not supported:", ", ".join(f"{count} {stem}" for stem, count in stems.most_common()) or "none")
    return counts["differ"] + wrong + (not counts["equal"])


def main(folder, program, *options):
    is_verbose = "-v" in options
    wrong = run("permutations", permutations(os.path.join(folder, "numberpermutationtest.txt")), program, is_verbose)
    wrong += run("api", cases(os.path.join(folder, "api.tsv")), program, is_verbose)
    return 1 if wrong else 0


if __name__ == "__main__":
    sys.exit(main(*sys.argv[1:]))
