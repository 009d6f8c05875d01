#!/usr/bin/env python3
"""Draws the pictures of docs/SPEED.md from the tables of that page: `tools/draw_speed.py [--check]`.

A table is found by the heading of its section and by a cell of its head. With `--check` it writes nothing, and fails
with a line if a picture is not what it would draw.
"""
import os
import re
import sys
from html import escape

ROOT = os.path.dirname(os.path.dirname(os.path.abspath(__file__)))
PAGE = f"{ROOT}/docs/SPEED.md"
WIDTH, LEFT, RIGHT, COLORS = 760, 290, 70, ["#0b66c3", "#c2410c", "#15803d", "#7c3aed", "#b91c1c", "#4b5563"]
OTHER = "#aab4bf"


def table(text, section, head):
    """The rows of a table as lists of cells: the first table of a section that has a cell in its head."""
    part = re.search(rf"^##+ {re.escape(section)}\n(.*?)(?=^##+ |\Z)", text, re.M | re.S)[1]
    for block in re.findall(r"(?:^\|.*\n)+", part, re.M):
        rows = [[cell.strip().strip("`") for cell in line[1:-1].split("|")] for line in block.splitlines()]
        if head in rows[0]:
            return [rows[0], *rows[2:]]
    raise SystemExit(f"docs/SPEED.md: {section} has no table with {head}")


def write(x, y, text, anchor="start", color="#1f2933", more=""):
    return f'<text x="{x:.1f}" y="{y:.1f}" text-anchor="{anchor}" fill="{color}"{more}>{escape(text)}</text>'


def line(x1, y1, x2, y2, color="#d5dbe1"):
    return f'<line x1="{x1:.1f}" y1="{y1:.1f}" x2="{x2:.1f}" y2="{y2:.1f}" stroke="{color}"/>'


def picture(title, height, parts):
    """A picture with its title on a white ground."""
    head = [f'<svg xmlns="http://www.w3.org/2000/svg" viewBox="0 0 {WIDTH} {height}" width="{WIDTH}" height="{height}" '
            'font-family="sans-serif" font-size="13">', f"<title>{escape(title)}</title>",
            f'<rect width="{WIDTH}" height="{height}" fill="#ffffff"/>',
            write(16, 26, title, more=' font-weight="bold"')]
    return "\n".join([*head, *parts, "</svg>", ""])


def bars(title, rows, end):
    """A bar for each row (name, value, whether it is ours), up to the value `end`, with its value."""
    parts, y = [], 44
    for name, value, ours in rows:
        length = value / end * (WIDTH - LEFT - RIGHT)
        parts += [write(LEFT - 10, y + 14, name, "end"), f'<rect x="{LEFT}" y="{y}" width="{length:.1f}" height="18" '
                  f'fill="{COLORS[0] if ours else OTHER}"/>', write(LEFT + length + 6, y + 14, f"{value:.2f}")]
        y += 26
    return picture(title, y + 10, parts)


def lines(title, across, rows, marks):
    """A line for each row of values, over equal steps, by a logarithmic scale with some marks."""
    from math import log
    left, right, top, bottom = 60, 150, 50, 330
    low, high = log(marks[0]), log(marks[-1])
    at_x = lambda i: left + i * (WIDTH - left - right) / (len(across) - 1)
    at_y = lambda value: bottom - (log(value) - low) / (high - low) * (bottom - top)
    parts = []
    for mark in marks:
        parts += [line(left, at_y(mark), WIDTH - right, at_y(mark), "#6b7680" if mark == 1 else "#e4e8ec"),
                  write(left - 8, at_y(mark) + 4, f"{mark:g}", "end")]
    parts += [write(at_x(i), bottom + 20, name, "middle") for i, name in enumerate(across)]
    labels = sorted((at_y(values[-1]), name, color) for (name, values), color in zip(rows, COLORS))
    for (name, values), color in zip(rows, COLORS):
        points = " ".join(f"{at_x(i):.1f},{at_y(value):.1f}" for i, value in enumerate(values))
        parts.append(f'<polyline points="{points}" fill="none" stroke="{color}" stroke-width="2"/>')
    last = top - 16
    for y, name, color in labels:
        last = max(y, last + 16)
        parts.append(write(WIDTH - right + 8, last + 4, name, color=color))
    return picture(title, bottom + 40, parts)


def beside_original(text):
    head, *rows = table(text, "Beside the original", "60000")
    shown = ["eq", "round", "multiply_pow10", "write_room", "display", "parse"]
    found = {name: [float(cell) for cell in cells] for name, *cells in rows if name in shown}
    return lines("Time of a call, divided by that of the original, by the number of digits (1: as fast)", head[1:],
                 [(name, found[name]) for name in shown], [0.04, 0.1, 0.2, 0.5, 1, 1.5])


def filters(text):
    _, *rows = table(text, "The filter", "CPU seconds")
    shown = [(name, float(seconds), name.startswith("fixdec_lines")) for name, seconds, *_ in rows]
    end = max(seconds for _, seconds, _ in shown)
    return bars("Processor seconds for 1,500,000 lines, rounded to two decimals", shown, end)


def beside_icu(text):
    ratio = lambda cell: float(re.search(r"\((.*)\)", cell)[1])
    decimals, skeletons = table(text, "Decimals", "1234.5"), table(text, "Number skeletons", "K")
    shown = [(f"{name}, {number}", ratio(cell), True) for name, *cells in decimals[1:]
             for number, cell in zip(decimals[0][1:], cells) if "(" in cell]
    shown += [(f"format, {name}, {stem}", ratio(cell), True) for name, *cells in skeletons[1:]
              if name in ("en", "ar-EG") for stem, cell in zip(skeletons[0][1:], cells)]
    return bars("Time divided by that of ICU 72 (the grey bar)", [("ICU 72", 1, False), *shown], 1)


def pictures():
    """The text of each picture, by its path."""
    with open(PAGE, encoding="utf-8") as file:
        text = file.read()
    drawn = {"speed_beside_original": beside_original, "speed_filter": filters, "speed_beside_icu": beside_icu}
    return {f"{ROOT}/docs/{name}.svg": draw(text) for name, draw in drawn.items()}


def main(words, pages):
    """Writes texts to their paths, or compares them with what is there."""
    status = 0
    for path, made in pages.items():
        found = open(path, encoding="utf-8").read() if os.path.exists(path) else ""
        if "--check" not in words:
            with open(path, "w", encoding="utf-8") as file:
                file.write(made)
        elif made != found:
            print(f"{os.path.relpath(path, ROOT)}: run python3 {os.path.relpath(sys.argv[0], ROOT)}", file=sys.stderr)
            status = 1
    return status


if __name__ == "__main__":
    sys.exit(main(sys.argv[1:], pictures()))
