#!/usr/bin/env python3
"""Writes the manual pages to a folder: `python3 tools/make_manuals.py FOLDER` makes FOLDER/man1 and FOLDER/man3.

fixdec(1), fixdec_lines(1) and plural(1) are made of the sections of docs/PROGRAMS.md, which are found by their
headings, and fixed_decimal(3) of c/fixed_decimal.h. The version and the date are those of the newest number in
CHANGELOG.md.
"""
import os
import re
import sys

ROOT = os.path.dirname(os.path.dirname(os.path.abspath(__file__)))
PROGRAMS = ["fixdec", "fixdec_lines", "plural"]
# The sections of docs/PROGRAMS.md that each page has after its synopsis, in this order. `Examples` is that of the
# program, and so are the others that end with `of PROGRAM`.
TABLES = ["Terms", "Locales", "Calls", "Rounding modes", "Number skeletons"]
LAST = ["Help and completions", "Statuses and errors", "Examples"]
SECTIONS = {"fixdec": ["Words", *TABLES, *LAST],
            "fixdec_lines": ["Options", "Words of fixdec", *TABLES, "Many processors", *LAST,
                             "Statuses and errors of fixdec"],
            "plural": ["Arguments", "Plural rules", *LAST]}


def read(path):
    with open(os.path.join(ROOT, path), encoding="utf-8") as file:
        return file.read()


# ---- roff

def escaped(text):
    """A text whose characters are printed as they are."""
    text = text.replace("\\", "\\(rs").replace("-", "\\-").replace("^", "\\(ha").replace("~", "\\(ti")
    return re.sub(r"^(?=[.'])", r"\\&", text.replace("`", "\\(ga"), flags=re.M)


def inline(text):
    """A line of Markdown: `code` and **words** are bold, and of a link its text is left."""
    text = re.sub(r"\[([^\]]*)\]\([^)]*\)", r"\1", text)
    parts = re.split(r"``?((?<=``).+?(?=``)|(?<=`)[^`]+)``?|\*\*(.+?)\*\*", text)
    made = "".join(f"\\fB{escaped(part)}\\fR" if at % 3 else escaped(part) for at, part in enumerate(parts) if part)
    return re.sub(r"^(?=[.'])", r"\\&", made)


def example(lines):
    """Lines that are printed as they are."""
    return [".PP", ".RS 4", ".EX", *(escaped(line) for line in lines), ".EE", ".RE"]


def table(rows):
    """A paragraph for each row below the first one: a cell, and what it means. Further cells follow their heading."""
    head, made = rows[0], []
    for tag, text, *more in rows[1:]:
        named = [f"{name}: {cell}" for name, cell in zip(head[2:], more) if cell]
        text = f"{head[1]} {text}" if re.fullmatch(r"\d*", text) else text
        made += [".TP", inline(tag), inline(". ".join([text, *named]))]
    return made


def cells(line):
    return [cell.strip().replace("\\|", "|") for cell in re.split(r"(?<!\\)\|", line)[1:-1]]


# ---- Markdown

def sections(text):
    """The sections of a page by their headings, without the sections in them."""
    parts = re.split(r"^##+ (.*)\n", text, flags=re.M)
    return dict(zip(parts[1::2], parts[2::2]))


def blocks(text):
    """The blocks of a section: code with its fences, tables, lists, and paragraphs of one line."""
    return [block for part in re.split(r"(^```.*?^```\n)", text, flags=re.M | re.S)
            for block in ([part] if part.startswith("```") else re.split(r"\n\n+", part.strip())) if block]


def roff(block):
    """A block of Markdown as lines of roff."""
    if block.startswith("```"):
        return example(block.splitlines()[1:-1])
    if block.startswith("|"):
        head, _, *rows = [cells(line) for line in block.splitlines()]
        return table([head, *rows])
    if block.startswith("- "):
        return [line for item in re.findall(r"^- (.*)", block, re.M) for line in (".IP \\(bu 2", inline(item))]
    return [".PP", inline(block)]


# ---- Pages

def heading(name, section):
    """The first line of a page."""
    version, date = re.search(r"^## \[(\d[^\]]*)\] - (\S+)", read("CHANGELOG.md"), re.M).groups()
    kind = "User Commands" if section == 1 else "Library Functions Manual"
    # In a terminal of ASCII.
    ascii = [r".fchar \[u20B9] Rs", r".fchar \[u00A0] \~"]
    heading = f'.TH {name.upper()} {section} {date} "fixed_decimal {version}" "{kind}"'
    return [heading, ".nr HY 0", ".nh", ".ad l", *ascii]


def see_also(name):
    pages = [(other, 1) for other in PROGRAMS] + [("fixed_decimal", 3)]
    return [".SH SEE ALSO", ", ".join(f"\\fB{other}\\fR({section})" for other, section in pages if other != name)]


def page_of_program(program):
    text = read("docs/PROGRAMS.md")
    page = sections(text)
    does = re.search(rf"^\| \[`{program}`\]\(.*?\) \| (.*) \|$", text, re.M)[1]
    synopsis, *description = blocks(page[f"Synopsis of {program}"])
    made = [*heading(program, 1), ".SH NAME", f"{program} \\- {inline(does)}", ".SH SYNOPSIS"]
    lines = synopsis.splitlines()[1:-1]
    made += [line for at, words in enumerate(lines) for line in [".br"][:at] + [inline(f"`{words}`")]]
    made += [".SH DESCRIPTION", *(line for block in description for line in roff(block))]
    for name in SECTIONS[program]:
        section = page.get(f"{name} of {program}") or page[name]
        made += [f".SH {name.upper()}", *(line for block in blocks(section) for line in roff(block))]
    return made + see_also(program)


def paragraphs(comment):
    """The paragraphs of a comment in C. Lines that begin with a space are kept as lines."""
    lines = [re.sub(r"^ ?\* ?", "", line) for line in comment.strip("/* \n").splitlines()]
    made = []
    for line in [line.rstrip() for line in lines]:
        joins = made and made[-1] and line and not re.match(r"- |Errors|The buffer is|FD_\w+: ", line)
        if line.startswith(" ") and line.strip("- ") and (not made or not made[-1].startswith("- ")):
            made.append(line)
        elif joins and not made[-1].startswith("  "):
            made[-1] += " " + line.strip()
        else:
            made.append(line)
    return made


def marked(text):
    """The names of the library in a comment, as code."""
    return re.sub(r"(?<![`\w])((?:FD|fd)_\w+)(?![`\w])", r"`\1`", text)


def roff_of_comment(comment):
    made = []
    for text in paragraphs(comment):
        if text.startswith("  "):
            made += [escaped(text[2:])] if made[-1:] != [".EE"] else []
        elif text.startswith("- "):
            made += [".IP \\(bu 2", inline(marked(text[2:]))]
        elif text:
            made += [".PP", inline(marked(text))]
    return made


def page_of_library():
    header = read("c/fixed_decimal.h")
    first, body = re.search(r"\A(/\*.*?\*/)(.*)", header, re.S).groups()
    body = body[body.index('extern "C" {\n#endif\n') + len('extern "C" {\n#endif\n'):body.rindex("#ifdef __cplusplus")]
    function = r"^(?!typedef)[\w *]+\b(fd_\w+)\([^;{}]*\);\n"
    groups = re.findall(r"(/\*(?:(?!\*/).)*?\*/)\n((?:(?!typedef)[\w *]+\bfd_\w+\([^;{}]*\);\n)+)", body, re.S)
    names = re.findall(function, body, re.M)
    statuses = re.search(r"/\*([^*]*)\*/\ntypedef enum fd_status \{(.*?)\} fd_status;\n", body, re.S)
    types = body.replace(statuses[0], "")
    for comment, prototypes in groups:
        types = types.replace(f"{comment}\n{prototypes}", "")
    title, *description = paragraphs(first)
    made = [*heading("fixed_decimal", 3), ".SH NAME", f"fixed_decimal, {', '.join(names)} \\- " +
            inline(title[0].lower() + title[1:].rstrip(".")), ".SH SYNOPSIS", ".nf", ".B #include <fixed_decimal.h>"]
    for _, prototypes in groups:
        made += ["", *(f"\\fB{escaped(line)}\\fR" for line in prototypes.splitlines())]
    made += ["", inline("`cc FILE.c $(pkg-config --cflags --libs fixed_decimal)`"), ".fi", ".SH DESCRIPTION"]
    grammar = [text[2:] for text in description if text.startswith("  ")]
    made += roff_of_comment("\n".join(text for text in description if not text.startswith("  "))) + example(grammar)
    made.append(".SH FUNCTIONS")
    for comment, prototypes in groups:
        made += [f".SS {', '.join(re.findall(function, prototypes, re.M))}", *roff_of_comment(comment)]
    made += [".SH ERRORS", inline(marked(" ".join(statuses[1].split())))]
    for name, text in re.findall(r"(FD_\w+) = \d+,?\s*(?:/\*(.*?)\*/)?", statuses[2], re.S):
        made += [".TP", f"\\fB{escaped(name)}\\fR", inline(marked(" ".join(text.split()) or "no error"))]
    made += [".SH TYPES", *example(re.sub(r"\n{3,}", "\n\n", types).strip().splitlines())]
    made += [".SH EXAMPLES", *example(read("c/example.c").splitlines())]
    return names, made + see_also("fixed_decimal")


def write(folder, name, section, lines):
    os.makedirs(f"{folder}/man{section}", exist_ok=True)
    with open(f"{folder}/man{section}/{name}.{section}", "w", encoding="utf-8") as file:
        file.writelines(f"{line}\n" for line in lines)


def main(folder):
    for program in PROGRAMS:
        write(folder, program, 1, page_of_program(program))
    names, page = page_of_library()
    write(folder, "fixed_decimal", 3, page)
    for name in names:
        write(folder, name, 3, [".so man3/fixed_decimal.3"])


if __name__ == "__main__":
    if len(sys.argv) != 2:
        sys.exit(__doc__)
    main(sys.argv[1])
