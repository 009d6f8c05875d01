"""What the scripts of the tables share: rows of data, tables as source, and the files of the tables."""
import os
import sys

FOLDER = os.path.dirname(os.path.abspath(__file__))
CRATES = os.path.join(FOLDER, "..", "..", "crates")
SOURCES = os.path.join(CRATES, "locale_data", "src", "tables")
SKIP = "#[rattlefmt::skip]\n"


def rows(name, folder=FOLDER):
    with open(os.path.join(folder, name), encoding="utf-8") as file:
        return [line.rstrip("\n").split("\t") for line in file if not line.startswith("#")]


def path(tag):
    """The tag, and the tag cut at each hyphen from the right."""
    return [tag] + [tag[:at] for at in range(len(tag) - 1, 0, -1) if tag[at] == "-"]


def listed_tags(tags, actual, usual):
    """The tags whose data are not those of the longest listed tag before one of their hyphens, or the usual ones."""
    listed = {}
    for tag in sorted(tags, key=lambda it: (it.count("-"), it)):
        parents = [it for it in path(tag)[1:] if it in listed]
        if actual(tag) != (listed[parents[0]] if parents else usual(tag)):
            listed[tag] = actual(tag)
    return sorted(listed.items())


def head(title, uses="", script="tools/locales/make_tables.py"):
    """The first lines of a file, which name the script that writes it."""
    return (f"//! {title}\n// Written by {script} from data of CLDR 48; their license is tools/locales/LICENSE. "
            f"Do not edit.\n{uses}")


def array(title, name, kind, items):
    return f"/// {title}\n{SKIP}pub static {name}: [{kind}; {len(items)}] = [\n{''.join(items)}];\n"


def byte_table(title, name, content):
    """A table of bytes, as a byte string."""
    lines, line = [], ""
    for byte in content:
        shown = chr(byte) if 32 <= byte < 127 and chr(byte) not in '"\\' else f"\\x{byte:02x}"
        if len(line) + len(shown) > 110:
            lines, line = [*lines, line], ""
        # A space at the head of a line would be skipped.
        line += "\\x20" if shown == " " and not line else shown
    shown = "\\\n".join(["", *lines, line])
    return f'/// {title}\n{SKIP}pub static {name}: [u8; {len(content)}] = *b"{shown}";\n'


def write_or_compare(texts, folder, script, words):
    """Writes the files of a folder, each with its text; with words compares them, and ends with those that differ."""
    wrong = []
    for name, text in texts.items():
        file_path = os.path.join(folder, name)
        if not words:
            with open(file_path, "w", encoding="utf-8") as file:
                file.write(text)
        else:
            with open(file_path, encoding="utf-8") as file:
                wrong += [] if file.read() == text else [name]
    if wrong:
        sys.exit(f"not what {script} writes: {', '.join(wrong)}")


class Texts:
    """A pool of texts: each is a range of its bytes."""

    def __init__(self, texts):
        self.bytes, self.starts = b"", {}
        for text in sorted(set(texts), key=lambda it: (-len(it.encode()), it)):
            start = self.bytes.find(text.encode())
            if start < 0:
                start, self.bytes = len(self.bytes), self.bytes + text.encode()
            self.starts[text] = start

    def numbers(self, text):
        """The range of a text, as two words."""
        return f"{self.starts[text]} {self.starts[text] + len(text.encode())}"

    def range(self, text):
        return f"TableRange({self.numbers(text).replace(' ', ', ')})"

    def array(self, title, name):
        return byte_table(title, name, self.bytes)


class Lists:
    """A pool of lists: each is a range of its items."""

    def __init__(self):
        self.items = []

    def range(self, items):
        starts = (at for at in range(len(self.items) + 1) if self.items[at:at + len(items)] == items)
        start = next(starts, len(self.items))
        self.items[start:start + len(items)] = items
        return f"TableRange({start}, {start + len(items)})"

    def array(self, title, name, kind):
        return array(title, name, kind, self.items)
