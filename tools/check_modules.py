#!/usr/bin/env python3
"""Checks that the modules of each crate use each other without a cycle, and that the reference is what
tools/make_reference.py makes of them: `python3 tools/check_modules.py`. The last line is `N passed, M failed`. With
names of crates it prints their graphs: the modules that each one uses, and by which names.

A module uses the modules that define the names in its code, whether a name is reached by `crate::`, `super::`, `self::`
or a re-export. It also uses a module whose `impl` has a method that it calls, if no other module has a method of that
name, and no trait, no crate below and no type of `std` has one. A parent that only re-exports a name of a child does
not use the child. Tests and contracts do not count.
"""
import glob
import os
import re
import sys

ROOT = os.path.dirname(os.path.dirname(os.path.abspath(__file__)))
# Methods of `std`.
OF_STD = set("append as_bytes as_mut as_ref as_str ceil chars clear clone close cmp consume contains copy count "
             "end eq fill filter find first floor flush from get get_mut index insert into into_inner into_iter "
             "is_empty is_none is_ok iter kind last len lines map max min name new next ok parse pop position push "
             "push_str read read_line remove repeat replace reserve rev round set split start starts_with take "
             "take_if trim trim_end trim_start trunc truncate unwrap_or write write_str zip".split())
PUBLIC = r"(pub(?:\([^)]*\))? )?"
HIDDEN = re.compile(r"//[^\n]*|\"(?:[^\"\\]|\\.)*\"|'(?:[^'\\\n]|\\[^\n']+)'|\bghost use [^;]*;", re.S)
TESTS = re.compile(r"^#\[cfg\(test\)\]\n[^\n]*\{", re.M)
CONTRACT = re.compile(r"\b(?:requires|ensures\*?)(?: \w+)? \{")
IMPORT = re.compile(rf"^ *{PUBLIC}use ([^;]*);", re.M)
ITEM = re.compile(rf"^{PUBLIC}(?:unsafe |const |extern \"\" )*(?:fn|struct|enum|trait|type|const|static) (\w+)", re.M)
BLOCK = re.compile(rf"^{PUBLIC}(?:unsafe )?(impl|trait)\b([^{{;]*)\{{(.*?)^\}}", re.M | re.S)
METHOD = re.compile(rf"^    {PUBLIC}(?:unsafe |const )*fn (\w+)", re.M)
PATH = re.compile(r"\b[A-Za-z_]\w*(?:::[A-Za-z_]\w*)+")
CALL = re.compile(r"(?:\.|\w::)(\w+)(?:::<[^()]*>)?\(")


def code_of(path):
    """The code of a file, without comments, texts, tests and contracts."""
    with open(path, encoding="utf-8") as file:
        text = HIDDEN.sub('""', file.read())
    for start in [TESTS, CONTRACT]:
        while found := start.search(text):
            at, depth = found.end(), 1
            while depth:
                at = re.compile("[{}]").search(text, at).end()
                depth += 1 if text[at - 1] == "{" else -1
            text = text[:found.start()] + text[at:]
    return text


def imported(body, prefix=""):
    """Each path of an import, and the name that it gets."""
    if group := re.fullmatch(r"((?:\w+::)*)\{(.*)\}", body, re.S):
        for part in re.findall(r"[^,{}]+(?:\{(?:[^{}]|\{[^{}]*\})*\})?", group[2]):
            yield from imported(part.strip(), prefix + group[1]) if part.strip() else []
    else:
        path, _, name = body.partition(" as ")
        path = (prefix + path).removesuffix("::self").split("::")
        yield path, name or path[-1]


class Module:
    def __init__(self, name, path):
        self.name, self.code = name, code_of(path)
        self.imports = [(public, *it) for public, body in IMPORT.findall(self.code) for it in imported(body)]
        self.code = IMPORT.sub("", self.code)
        self.names = set(re.findall(r"\w+", self.code))
        self.items = {name for _, name in ITEM.findall(self.code)}
        self.methods, self.of_traits = set(), set()
        for _, kind, head, body in BLOCK.findall(self.code):
            is_of_trait = kind == "trait" or " for " in head
            (self.of_traits if is_of_trait else self.methods).update(name for _, name in METHOD.findall(body))


class Crate:
    def __init__(self, folder):
        self.modules = {}
        for path in glob.glob(f"{folder}/src/**/*.rt", recursive=True):
            name = tuple(os.path.relpath(path, f"{folder}/src")[:-3].split("/"))
            name = () if name in [("lib",), ("main",)] else name
            self.modules[name] = Module(name, path)

    def found(self, module, path, seen=()):
        """The module that a path in a module names, or the module that defines it and the item."""
        if (module.name, *path) in seen:
            return None, None
        seen, first, rest = (*seen, (module.name, *path)), path[0], path[1:]
        if first in ("crate", "self", "super"):
            other = self.modules[{"crate": (), "self": module.name, "super": module.name[:-1]}[first]]
        else:
            other = self.modules.get((*module.name, first))
        if other:
            return self.found(other, rest, seen) if rest else (other, None)
        if first in module.items:
            return module, first
        for _, target, name in module.imports:
            if name == first and target != path:
                return self.found(module, [*target, *rest], seen)
        for _, target, name in module.imports:
            other, item = self.found(module, target[:-1], seen) if name == "*" else (None, None)
            other, item = self.found(other, path, seen) if other and not item else (None, None)
            if item:
                return other, item
        return None, None

    def uses(self, module, owners):
        """The modules that a module uses, each with the names."""
        uses, named = {}, [path.split("::") for path in PATH.findall(module.code)]
        for public, path, name in module.imports:
            if name == "*":
                named += [[*path[:-1], it] for it in module.names]
            elif name in module.names or not public:
                named.append(path)
            else:
                other, _ = self.found(module, path)
                named += [path] if other and other.name[:len(module.name)] != module.name else []
        for path in named:
            other, item = self.found(module, path)
            if item:
                uses.setdefault(other.name, set()).add(item)
        for name in CALL.findall(module.code):
            if name in owners:
                uses.setdefault(owners[name], set()).add(f".{name}")
        uses.pop(module.name, None)
        return uses

    def graph(self, below=()):
        """The modules that each module uses, of a crate with crates below."""
        taken, owners = set(OF_STD), {}
        for module in self.modules.values():
            taken |= module.of_traits | module.methods & owners.keys()
            owners.update(dict.fromkeys(module.methods, module.name))
        for crate in below:
            for module in crate.modules.values():
                taken |= module.of_traits | module.methods
        owners = {name: owner for name, owner in owners.items() if name not in taken}
        return {name: self.uses(self.modules[name], owners) for name in sorted(self.modules)}


def cycles(graph):
    """For each set of modules that use each other, directly or not: a shortest cycle of it, and the set."""
    def before(start):
        """All that one uses, near ones first, each with the one before it on the way."""
        ways, todo = {}, [start]
        for name in todo:
            new = [other for other in sorted(graph[name]) if other not in ways]
            ways.update(dict.fromkeys(new, name))
            todo += new
        return ways

    ways, seen = {name: before(name) for name in graph}, set()
    for name in graph:
        if name in ways[name] and name not in seen:
            others = {other for other in ways[name] if name in ways[other]}
            seen |= others
            cycle = [name]
            while len(cycle) == 1 or cycle[0] != name:
                cycle.insert(0, ways[name][cycle[0]])
            yield cycle, others


def text(name):
    return "::".join(name) or "(root)"


def main(names):
    with open(f"{ROOT}/crates.txt", encoding="utf-8") as file:
        lines = [re.split(r"[:\s]+", line.strip()) for line in file if ":" in line and line[0] != "#"]
    crates = {name: Crate(f"{ROOT}/crates/{name}") for name, *_ in lines}
    failed = 0
    for crate, *below in lines:
        if names and crate not in names:
            continue
        graph = crates[crate].graph([crates[it] for it in below if it in crates])
        for name, uses in graph.items() if names else []:
            print(f"{text(name)}: " + "; ".join(f"{text(it)} ({', '.join(sorted(uses[it]))})" for it in sorted(uses)))
        found = list(cycles(graph))
        for cycle, others in found:
            more = " ".join(["; with it:", *sorted(map(text, others - set(cycle)))]) if others - set(cycle) else ""
            print(f"{crate}: a cycle of modules: {' -> '.join(map(text, cycle))}{more}")
        failed += bool(found)
    if not names:
        from make_reference import check  # It imports this module.
        found = check()
        print("\n".join(found), end="\n" * bool(found))
        failed += bool(found)
    print(f"{len(names or [*crates, 'the reference']) - failed} passed, {failed} failed")
    return 1 if failed else 0


if __name__ == "__main__":
    sys.exit(main(sys.argv[1:]))
