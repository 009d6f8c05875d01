#!/usr/bin/env python3
"""Makes the reference from the sources: `tools/make_reference.py [--check]`.

It writes a page of docs/reference/ for each library, with its public items: declaration, doc comment and contract. It
also writes the index of CALLING.md, which follows the line `<!-- index -->` there: the items by task, as
docs/reference/tasks.txt has the tasks. With `--check` it writes nothing, and fails with a line for each page that is
not what it would write. In both cases it fails with a line for each public item that has no doc comment or no task.

The public items are those that the root module of a crate reaches, the types that their declarations name, and the
public methods of these types.
"""
import os
import re
import sys
import textwrap

from check_modules import ROOT, Crate

LIBRARIES = ["decimal_digits", "decimal_unsigned", "fixed_decimal", "decimal_format", "plural_rules", "locale_data",
             "locale_names", "number_format", "number_skeleton", "conversions", "cli", "fixed_decimal_c"]
FOLDER, INDEX, TASKS = "docs/reference", "CALLING.md", "docs/reference/tasks.txt"
FIRST = "<!-- index -->\n"
# The task of items that need no doc comment, and the crate by which callers name what it re-exports.
INTERNAL, FRONT = "For the crates of this repository", "fixed_decimal"
MADE = "`tools/make_reference.py` makes this page from the sources, and the gate compares it with them."
# The types of which an alias is used, under which the methods are listed.
ALIASES = {"Signed": "Decimal", "UnsignedOver": "UnsignedDecimal"}
HEAD = re.compile(r"(pub )?(?:unsafe |const (?=fn)|extern \"C\" )*(fn|struct|enum|trait|type|const|static|impl|ghost)\b"
                  r"(?!:)(?:<.*?>(?= ))? (\w+)?")
IMPL = re.compile(r"impl(?:<.*?>)? (?:([\w:]+(?:<[^ ]*>)?) for )?([\w:]+)")


def read(path):
    with open(f"{ROOT}/{path}", encoding="utf-8") as file:
        return file.read()


def depth(line):
    return len(line) - len(line.lstrip())


class Item:
    """A declaration: its kind and name, its doc comment, its head, its contract, and the lines of its block."""

    def __init__(self, lines, row, indent, doc, attributes):
        head = HEAD.match(lines[row][indent:])
        self.is_public, self.kind, self.name = bool(head[1]), head[2], head[3] or ""
        self.doc, self.end, body = doc, row, None
        while body is None:
            line = lines[self.end].split(" // ")[0]
            following = next((it for it in lines[self.end + 1:] if it), "")
            goes_on = depth(following) > indent or following.strip()[:1] in (")", "{", "}", "]")
            if depth(line) == indent and line.endswith("{"):
                body = self.end
            elif depth(line) == indent and line.endswith((";", "{}")) or not goes_on:
                break
            else:
                self.end += 1
        head = [line[indent:] for line in lines[row:self.end + (body is None or lines[self.end] != " " * indent + "{")]]
        self.block = []
        if body is not None:
            self.end = next(at for at in range(body, len(lines)) if lines[at].startswith(" " * indent + "}"))
            self.block = lines[body + 1:self.end]
        clauses = re.compile(r"    (ensures|requires|//)" if self.kind == "fn" else "$^")
        first = next((at for at, line in enumerate(head) if clauses.match(line)), len(head))
        self.contract = textwrap.dedent("\n".join(head[first:]).rstrip(";").rstrip())
        self.head = "\n".join(attributes + head[:first])
        if self.kind in ("const", "static", "struct", "enum", "trait", "fn", "impl"):
            self.head = re.sub(r" = .*|;\Z| ?\{(\})?\Z", "", self.head, flags=re.S)
        if self.kind == "struct" and "pub " not in self.head.partition("(")[2]:
            self.head = re.sub(r"\(.*\)\Z", "(..)", self.head, flags=re.S)
        # The declaration as it is, without the body of a function.
        whole = [it[indent:] for it in lines[row:self.end + 1]] if self.kind == "ghost" else [self.head, *head[first:]]
        self.text = "\n".join([f"/// {line}".rstrip() for line in doc] + whole)
        self.owner = self.module = self.of = None
        self.traits, self.members = [], []

    def sentence(self):
        """The first sentence of the doc comment."""
        paragraph = " ".join(self.doc[:self.doc.index("")] if "" in self.doc else self.doc)
        found = re.match(r"(.*?(?:[.](?= |$)|$))", paragraph)[1]
        return found if found.endswith(".") else found.rstrip(":,;") + "."


def items(lines, indent=0):
    """The declarations at an indent, without hidden ones and those of tests."""
    doc, attributes, hidden, row = [], [], False, 0
    while row < len(lines):
        text = lines[row][indent:] if not lines[row][:indent].strip() else ""
        if text.startswith("#[cfg(test)]"):
            break
        if text.startswith("///"):
            doc.append(text[4:])
        elif text.startswith(("#[derive", "#[repr")):
            attributes.append(text)
        elif HEAD.match(text) and not text.startswith(("ghost use", "const _")):
            item = Item(lines, row, indent, doc, attributes)
            if not hidden:
                yield item
            row, doc, attributes, hidden = item.end, [], [], False
        elif not text.startswith(("#[", "//")):
            doc, attributes, hidden = [], [], False
        hidden = hidden or text == "#[doc(hidden)]"
        row += 1


class Library:
    """The public items of a crate, and the names that it re-exports from others."""

    def __init__(self, name):
        self.name, self.crate = name, Crate(f"{ROOT}/crates/{name}")
        self.all, self.public, self.others, impls = {}, {}, {}, []
        for module in sorted(self.crate.modules):
            path = f"crates/{name}/src/{'/'.join(module) or 'lib'}.rt"
            for item in items(read(path).split("\n")) if os.path.exists(f"{ROOT}/{path}") else []:
                item.module = module
                if item.kind == "impl":
                    impls.append(item)
                else:
                    self.all[module, item.name] = item
        for item in impls:
            trait, owner = IMPL.match(item.head).groups()
            item.owner = self.find(item.module, owner)
            if item.owner and trait:
                item.owner.traits.append(item)
            elif item.owner:
                for member in items(item.block, 4):
                    member.module = item.module
                    item.owner.members += [member] * member.is_public
        self.reach((), set())
        self.reach_types()

    def find(self, module, path):
        """The item that a path in a module names."""
        found, name = self.crate.found(self.crate.modules[module], path.split("::"))
        return self.all.get((found.name, name)) if found and name else None

    def reach(self, module, seen):
        """Adds the items that a public module has or re-exports."""
        seen.add(module)
        text = read(f"crates/{self.name}/src/{'/'.join(module) or 'lib'}.rt")
        for (place, _), item in self.all.items():
            if place == module and item.is_public:
                self.public.setdefault(item, "::".join((*module, item.name)))
        for public, path, name in self.crate.modules[module].imports:
            found, item = self.crate.found(self.crate.modules[module], path) if public == "pub " else (None, None)
            if found and item and (found.name, item) in self.all:
                self.public.setdefault(self.all[found.name, item], "::".join((*module, name)))
            elif public == "pub " and path[0] in LIBRARIES:
                self.others.setdefault(path[0], []).append((name, path))
        for name in re.findall(r"^pub mod (\w+);", text, re.M):
            if (*module, name) not in seen:
                self.reach((*module, name), seen)

    def reach_types(self):
        """Adds the types that declarations name, and gives each item its methods."""
        todo = list(self.public)
        for item in todo:
            if item.kind == "trait":
                item.members = [it for it in items(item.block, 4) if it.kind == "fn"]
            declared = [item.head, *(it.head for it in item.members), *(name for name, _ in fields(item))]
            for word in sorted(set(re.findall(r"\b[A-Z]\w+", "\n".join(declared)))):
                found = self.find(item.module, word)
                if found and found.is_public and found not in self.public:
                    self.public[found] = found.name
                    todo.append(found)


def fields(item):
    """The public fields of a struct, or the variants of an enum, each with its doc comment."""
    found, doc, row = [], [], 0
    while item.kind in ("struct", "enum") and row < len(item.block):
        line = item.block[row]
        if line.startswith("    ///"):
            doc.append(line[8:])
        elif depth(line) == 4 and not re.match(r"    (#|//|ghost)", line):
            last = row
            while item.block[last][4:5] == " " or not item.block[last].endswith((",", "}", ")")):
                last += 1
            if item.kind == "enum" or re.match(r"    pub (?!ghost)", line):
                lines = [it.strip() for it in item.block[row:last + 1] if not it.strip().startswith("///")]
                found.append((" ".join(lines).removeprefix("pub ").rstrip(",").replace(", }", " }"), " ".join(doc)))
            row, doc = last, []
        row += 1
    return found


def folded(summary, text):
    """A contract that is shown when its summary is clicked."""
    return f"<details><summary>{summary}</summary>\n\n```antt\n{text}\n```\n\n</details>\n"


class Pages:
    """The texts of the pages, with the links between them."""

    def __init__(self):
        self.libraries = {name: Library(name) for name in LIBRARIES}
        self.anchors, self.entries, self.failures = {}, [], []
        for name, library in self.libraries.items():
            for item, path in library.public.items():
                self.add(name, path, item, None)
                for member in item.members:
                    member.module = member.module if member.module is not None else item.module
                    self.add(name, f"{ALIASES.get(item.name, item.name)}::{member.name}", member, item)

    def add(self, crate, label, item, owner):
        """Gives an item its heading and its anchor; a heading is on its page once."""
        item.crate, item.label, item.of = crate, label, owner
        item.anchor = f"{crate}.md#{re.sub(r'[^a-z0-9_]', '', label.lower())}"
        if item.anchor in {it.anchor for it in self.entries}:
            self.failures.append(f"{crate}: two items have the heading {label}")
        names = label.split("::")
        for key in [label, "::".join(names[-2:]), names[-1], *([f"{owner.name}::{item.name}"] if owner else [])]:
            self.anchors.setdefault((crate, key), item.anchor)
        self.entries.append(item)

    def linked(self, text, item):
        """A text of a doc comment, with its links to items as links to pages."""
        def link(found):
            shown, path = re.sub(r"^(?:Self|crate)::", "", found[1]), found[2] or found[1]
            owner = item.of.name if item.of else item.name
            names = path.replace("Self::", f"{owner}::").removeprefix("crate::").replace("super::", "").split("::")
            for crate in [names[0], item.crate, *reversed(LIBRARIES)]:
                for key in ["::".join(names[-2:]), names[-1]]:
                    if anchor := self.anchors.get((crate, key)):
                        page, _, place = anchor.partition("#")
                        return f"[`{shown}`]({page if page != item.crate + '.md' else ''}#{place})"
            return f"`{shown}`"
        return re.sub(r"\[`([^`\]]+)`\](?:\(([\w:]+)\))?", link, text)

    def doc(self, item):
        """A doc comment in Markdown."""
        made, inside = [], False
        for line in item.doc:
            if line.startswith("```"):
                made.append("```rust" if line == "```" and not inside else line)
                inside = not inside
            else:
                made.append(line if inside else self.linked(re.sub(r"^#+ (.*)", r"**\1**", line), item))
        return "\n".join([*made, ""] if made else [])

    def section(self, item):
        """The section of an item: its declaration, its doc comment, its parts and its contract."""
        made = [f"{'###' if item.of else '##'} `{item.label}`\n", f"```rust\n{item.head}\n```\n", self.doc(item)]
        rows = [(name, self.linked(doc, item)) for name, doc in fields(item)]
        if rows:
            made.append("| {} | Meaning |\n|---|---|".format("Variant" if item.kind == "enum" else "Field"))
            made += ["| `{}` | {} |".format(*(it.replace("|", "\\|") for it in row)) for row in rows] + [""]
        if item.contract:
            counts = {word: len(re.findall(rf"^{kind}\b", item.contract, re.M))
                      for kind, word in [("requires", "condition"), ("ensures", "clause")]}
            shown = (f"{count} {word}{'s' * (count > 1)}" for word, count in counts.items() if count)
            made.append(folded(f"Contract: {', '.join(shown)}", item.contract))
        if ghosts := [it.text for it in items(item.block, 4) if it.kind == "ghost"]:
            made.append(folded("Invariants" if item.kind == "struct" else "What contracts see", "\n\n".join(ghosts)))
        traits = {it: IMPL.match(it.head)[1].split("::")[-1] for it in item.traits}
        if shown := [it for it in traits if traits[it] != "Drop"]:
            parts = {it: textwrap.indent("\n\n".join(part.text for part in items(it.block, 4)), "    ") for it in shown}
            names = dict.fromkeys(f"<code>{traits[it].replace('<', '&lt;')}</code>" for it in shown)
            made.append(folded("Traits: " + ", ".join(names), "\n\n".join(
                f"{it.head} {{\n{parts[it]}\n}}" if parts[it] else f"{it.head} {{}}" for it in shown)))
        return "\n".join(made)

    def page(self, library):
        """The page of a library."""
        root = read(f"crates/{library.name}/src/lib.rt").split("\n")
        title = Item(["fn x()"], 0, 0, [it[4:] for it in root if it.startswith("//!")], [])
        title.crate, title.of = library.name, None
        made = [f"# {library.name}\n", f"{MADE} [CALLING.md](../../{INDEX}) has the items by task.\n", self.doc(title)]
        for crate, names in library.others.items():
            places = (next((self.anchors[it, path[-1]] for it in [crate, *LIBRARIES] if (it, path[-1]) in self.anchors),
                           f"{crate}.md") for _, path in names)
            shown = ", ".join(f"[`{name}`]({place})" for (name, _), place in zip(names, places))
            made.append(f"Of [{crate}]({crate}.md) it re-exports {shown}.\n")
        for item in library.public:
            made += [self.section(it) for it in [item, *item.members]]
        return "\n".join(made)

    def tasks(self):
        """The items of each task. An item is where its own name is, or else that of its module, of its type or of a
        crate; the items of a task have the order of these names."""
        tasks, places = [], {}
        for line in read(TASKS).splitlines():
            if line.startswith("# "):
                tasks.append(line[2:])
            elif not line.startswith("//"):
                places.update({name: (len(tasks) - 1, len(places) + at) for at, name in enumerate(line.split())})
        found, used = {}, set()
        for item in self.entries:
            paths = ["::".join(item.module[:size]) for size in range(len(item.module), 0, -1)]
            paths.insert(item.of is not None and item.of.module != item.module, (item.of or item).label)
            paths = [*(f"{item.crate}::{it}" for it in [item.label, *paths]), item.crate]
            path = next((it for it in paths if it in places), None)
            used.add(path)
            if path:
                found.setdefault(places[path], []).append(item)
            else:
                self.failures.append(f"{TASKS}: {paths[0]} of {'::'.join(item.module)} is in no task")
            if not item.doc and tasks[places.get(path, (0,))[0]] != INTERNAL:
                self.failures.append(f"crates/{item.crate}: {item.label} has no doc comment")
        self.failures += [f"{TASKS}: no item is in {path}" for path in places if path not in used]
        return {task: [item for place in sorted(found) if place[0] == at for item in found[place]]
                for at, task in enumerate(tasks)}

    def home(self, item):
        """The type of a method, or the path that a caller names before another item, as a link to the item."""
        again = any(name == item.name for names in self.libraries[FRONT].others.values() for name, _ in names)
        path = FRONT if again else "::".join([item.crate, *item.label.split("::")[:-1]])
        return f"[`{item.label.split('::')[0] if item.of else path}`]({FOLDER}/{item.anchor})"

    def index(self):
        """The items by task: a row for each name, with the types that have it."""
        made = []
        for task, found in self.tasks().items():
            made += [f"### {task}\n", "| Item | Of | What it does |", "|---|---|---|"]
            rows, values = {}, {}
            for item in found:
                base = re.search(r"[aA]s (?:\[`(\w+)`\]\(Self::|`(\w+)`, by value)", " ".join(item.doc[:2]))
                if base and re.search(r"\(\s*(?:mut )?self\b", item.head):
                    values[item.of, base[1] or base[2]] = item
                else:
                    owner = item.of.name in ALIASES if item.of else item
                    rows.setdefault((item.name, owner if owner is True else item.of or item), []).append(item)
            for same in rows.values():
                text = self.linked(same[0].sentence(), same[0]).replace("|", "\\|")
                text = re.sub(r"\]\(([\w.]*)#", lambda it: f"]({FOLDER}/{it[1] or same[0].crate + '.md'}#", text)
                by_value = [it for it in (values.pop((it.of, it.name), None) for it in same) if it]
                if by_value:
                    text += f" By value: [`{by_value[0].name}`]({FOLDER}/{by_value[0].anchor})."
                made.append(f"| `{same[0].name}` | {', '.join(self.home(it) for it in same)} | {text} |")
            self.failures += [f"{it.label}: there is no {base} beside it" for (_, base), it in values.items()]
            made.append("")
        return "\n".join(made)


def pages():
    """The text of each page, by its path, and what is wrong with the sources."""
    made = Pages()
    texts = {f"{FOLDER}/{name}.md": made.page(library) for name, library in made.libraries.items()}
    by_hand, first, _ = read(INDEX).partition(FIRST)
    if not first:
        made.failures.append(f"{INDEX}: the line {FIRST.strip()} is missing")
    texts[INDEX] = f"{by_hand}{FIRST}\n{made.index()}"
    return {path: text.rstrip("\n") + "\n" for path, text in texts.items()}, made.failures


def check():
    """What is wrong: a line for each page that is not what this script would write, and for each item that lacks
    something."""
    texts, failures = pages()
    listed = {f"{FOLDER}/{name}" for name in os.listdir(f"{ROOT}/{FOLDER}") if name.endswith(".md")}
    failures += [f"{path}: no library has this page" for path in sorted(listed - set(texts))]
    return failures + [f"{path}: run python3 tools/make_reference.py" for path, text in texts.items()
                       if not os.path.exists(f"{ROOT}/{path}") or read(path) != text]


def main(words):
    if "--check" in words:
        failures = check()
    else:
        texts, failures = pages()
        for path, text in texts.items():
            with open(f"{ROOT}/{path}", "w", encoding="utf-8") as file:
                file.write(text)
    print("\n".join(failures), end="\n" * bool(failures), file=sys.stderr)
    return 1 if failures else 0


if __name__ == "__main__":
    sys.exit(main(sys.argv[1:]))
