"""Joins the tables of several layouts of the program: of a cell with two times, the least here over the least there;
of any other number, the median."""

import re
import sys

CELL = re.compile(r"(\d+(?:\.\d+)?)(?: / (\d+(?:\.\d+)?))?")


def joined(cells):
    """One figure of the cells of all layouts."""
    here, there = zip(*cells)
    if all(there):
        return f"{min(map(float, here)) / min(map(float, there)):.2f}"
    return sorted(here, key=float)[(len(here) - 1) // 2]


texts = [open(name, encoding="utf-8").read() for name in sys.argv[1:]]
assert len({CELL.sub("#", text) for text in texts}) == 1, "the tables differ in more than numbers"
cells = zip(*([found.groups() for found in CELL.finditer(text)] for text in texts))
print(CELL.sub(lambda _: joined(next(cells)), texts[0]), end="")
