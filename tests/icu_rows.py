#!/usr/bin/env python3
"""Checks what ICU says of number skeletons against the C library: `tests/icu_rows.py TSV`.

TSV has rows of a locale, a skeleton, a number and its text, perhaps with a word and the text of CLDR 48; of a skeleton,
ICU's error and its offset in UTF-16 units; or of a skeleton and its normal form, which has to write the same. `\\uXXXX`
and `\\{TEXT*COUNT}` are a UTF-16 unit and repetitions. Counted by themselves are stems that are not supported, by name,
and rows with an error of ICU that is not one of syntax, as of numbers with more digits than it rounds.

The last line is `N passed, M failed`; the status is 0 if M is 0.
"""
import collections
import re
import sys

sys.dont_write_bytecode = True
from c_library import fd
from rows import OK, ROOM, SKELETON_SYNTAX, UNSUPPORTED, sized, stem_at

ESCAPED = re.compile(r"\\(?:\{(.*?)\*(\d+)\}|u([0-9A-Fa-f]{4})|(.))", re.S)
SAMPLE = "-1234567.891"


def plain(text):
    """A text without escapes."""
    named = {"t": "\t", "n": "\n", "r": "\r"}

    def one(found):
        run, count, unit, other = found.groups()
        return run * int(count) if run is not None else chr(int(unit, 16)) if unit else named.get(other, other)
    return ESCAPED.sub(one, text).encode("utf-16", "surrogatepass").decode("utf-16", "replace")


def formatted(locale, skeleton, number):
    """The text of a number by a skeleton, or the status and the offset of the error."""
    answer = fd.fd_format_by_skeleton(*sized(number), *sized(locale), *sized(skeleton), ROOM, len(ROOM))
    return ROOM[:answer.count].decode() if answer.status == OK else (answer.status, answer.at)


def is_right(row, found):
    """Whether a row of a text, of an error or of a normal form holds."""
    if len(row) > 3:
        return found == (row[5] if len(row) > 5 else row[3])
    if len(row) == 2:
        return isinstance(found, str) and found == formatted("en", row[1], SAMPLE)
    skeleton, error, offset = row
    if error != "U_NUMBER_SKELETON_SYNTAX_ERROR":
        return isinstance(found, str)
    units = skeleton.encode("utf-16-le")[:2 * int(offset)]
    return found == (SKELETON_SYNTAX, len(units.decode("utf-16-le").encode()))


def main(name):
    passed, failed, exact, unsupported = 0, 0, 0, collections.Counter()
    with open(name, encoding="utf-8", newline="\n") as file:
        lines = [line.rstrip("\n") for line in file if not line.startswith("# ")]
    for row in ([plain(it) for it in line.split("\t")] for line in lines):
        locale, skeleton, number = row[:3] if len(row) > 3 else ("en", row[0], SAMPLE)
        found = formatted(locale, skeleton, number)
        if isinstance(found, tuple) and found[0] == UNSUPPORTED:
            unsupported[stem_at(skeleton, found[1])] += 1
        elif isinstance(found, str) and row[3 if len(row) > 3 else -1].startswith("error "):
            exact += 1
        elif is_right(row, found):
            passed += 1
        else:
            failed += 1
            if failed <= 20:
                print(row, found)
    print(f"numbers for which ICU has an error: {exact}")
    print("unsupported:", ", ".join(f"{stem:.40} {count}" for stem, count in unsupported.most_common()) or "none")
    print(f"{passed} passed, {failed} failed")
    return failed > 0 or passed == 0


if __name__ == "__main__":
    sys.exit(main(sys.argv[1]))
