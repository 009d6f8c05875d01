#!/usr/bin/env python3
"""Draws the crates, their modules and the times: `tools/pictures.py [--check]`.

It writes the picture of the crates into docs/DESIGN.md, docs/MODULES.md with those of the modules, as Mermaid, a
README.md for each crate with a table of its modules, and what tools/draw_speed.py draws. An arrow leads from what uses
to what it uses; an arrow that other arrows imply is left out. With `--check` it writes nothing, and fails with a line
if a page is not what it would write.
"""
import glob
import os
import re
import sys

import draw_speed
from check_modules import ROOT, Crate, text

DESIGN, MODULES = f"{ROOT}/docs/DESIGN.md", f"{ROOT}/docs/MODULES.md"
CRATES = re.compile(r"(<!-- crates -->\n).*?(<!-- end -->)", re.S)
HEAD = (
    "# Modules\n\n"
    "`tools/pictures.py` makes this page from the sources, and the gate compares it with them. "
    "An arrow leads from a module to one that it uses; an arrow that other arrows imply is left out. "
    "No modules use each other in a circle, which `tools/check_modules.py` checks. "
    "[DESIGN.md](DESIGN.md) has a picture of the crates, "
    "and the README.md of each crate says what its modules hold.\n")


def below(graph, name):
    """All that one uses, directly or not."""
    found, todo = set(), [name]
    while todo:
        new = graph[todo.pop()] - found
        found |= new
        todo += new
    return found


def reduced(graph):
    """The graph without the uses that others imply."""
    whole = {name: below(graph, name) for name in graph}
    return {name: {it for it in uses if not any(it in whole[other] for other in uses)} for name, uses in graph.items()}


def picture(graph):
    """A graph of names as Mermaid, in which a name with other characters than those of words is a label."""
    ids = {name: re.sub(r"\W+", "_", name) for name in sorted(graph)}
    lines = [f'  {short}["{name}"]' for name, short in ids.items() if short != name]
    lines += [f"  {ids[name]} --> {ids[it]}" for name, uses in sorted(reduced(graph).items()) for it in sorted(uses)]
    return "\n".join(["```mermaid", "graph TD", *lines, "```", ""])


def crates():
    """The crates that each crate names, in the order of `crates.txt`."""
    with open(f"{ROOT}/crates.txt", encoding="utf-8") as file:
        lines = [re.split(r"[:\s]+", line.strip()) for line in file if ":" in line and line[0] != "#"]
    names = [name for name, *_ in lines]
    return {name: {it for it in others if it in names} for name, *others in lines}


def modules(name, others, every):
    """The modules that each module of a crate uses."""
    graph = every[name].graph([every[it] for it in others])
    return {text(module): {text(it) for it in uses} for module, uses in graph.items()}


def comment(path):
    """The first paragraph of the comment at the start of a module."""
    with open(path, encoding="utf-8") as file:
        lines = re.match(r"(?://!.*\n)*", file.read())[0].splitlines()
    lines = [line[3:].strip() for line in lines]
    return " ".join(lines[:lines.index("")] if "" in lines else lines).replace("|", "\\|")


def cited(name, path):
    """The files of definitions of a crate that the contracts of a module cite."""
    with open(path, encoding="utf-8") as file:
        code = file.read()
    found = set(re.findall(r"\bcrate::specs::(\w+)", code))
    for names in re.findall(rf"^ *ghost use Rattle\.{name}\.specs\.([^;]*);", code, re.M):
        while names != (names := re.sub(r"(\w)\.\{[^{}]*\}", r"\1", names)):
            pass
        found.update(re.findall(r"(?:^|[{, ])([A-Z]\w*)", names))
    return found


def stems(pattern):
    return sorted(os.path.basename(path)[:-5] for path in glob.glob(f"{ROOT}/crates/{pattern}.antt"))


def main_module(name):
    """The file whose comment says what a crate is."""
    paths = [f"{ROOT}/crates/{name}/src/{stem}.rt" for stem in ("lib", "main")]
    return next(path for path in paths if os.path.isfile(path))


def readme(name, crate, used):
    """The page of a crate."""
    folder = f"{ROOT}/crates/{name}"
    paths = {module: f"{folder}/src/{'/'.join(module)}.rt" for module in sorted(crate.modules) if module}
    parts = [f"# {name}", comment(main_module(name))]
    if uses := [f"[{it}](../{it}/README.md)" for it in used]:
        parts.append(f"It uses {', '.join(uses)}.")
    specs = set(stems(f"{name}/specs/*")) - {"Lib"}
    if paths:
        rows = ["| Module | What it holds | Definitions that its contracts cite |", "|---|---|---|"]
        for module, path in paths.items():
            found = cited(name, path) & specs
            rows.append(f"| `{text(module)}` | {comment(path)} | {', '.join(sorted(found))} |")
        parts.append("\n".join(rows))
        every = set().union(*(cited(name, path) for path in paths.values()))
        if left := sorted(specs - every):
            parts.append(f"Other definitions: {', '.join(left)}.")
    lemmas = {os.path.basename(it): stems(f"{name}/proofs/lemmas/{os.path.basename(it)}/*")
              for it in sorted(glob.glob(f"{folder}/proofs/lemmas/*")) if os.path.isdir(it)}
    if lemmas:
        listed = "; ".join(f"`{topic}`: {', '.join(names)}" for topic, names in lemmas.items())
        parts.append(f"Lemmas of several proofs, in `proofs/lemmas`: {listed}.")
    parts.append("[docs/DESIGN.md](../../docs/DESIGN.md) has all crates, "
                 "and [docs/MODULES.md](../../docs/MODULES.md) pictures of the modules. "
                 "`tools/pictures.py` makes this page from the sources.")
    return "\n\n".join(parts) + "\n"


def pages():
    """The text of each page, by its path."""
    used = crates()
    every = {name: Crate(f"{ROOT}/crates/{name}") for name in used}
    parts, made = [HEAD], {}
    for name, others in used.items():
        graph = modules(name, others, every)
        if len(graph) > 1:
            parts.append(f"## {name}\n\n{picture(graph)}")
        made[f"{ROOT}/crates/{name}/README.md"] = readme(name, every[name], [it for it in used if it in others])
    rows = "".join(f"| [`{name}`](../crates/{name}/README.md) | {comment(main_module(name))} |\n" for name in used)
    drawn = f"{picture(used)}\n| Crate | What it is |\n|---|---|\n{rows}"
    with open(DESIGN, encoding="utf-8") as file:
        design = file.read()
    made |= {DESIGN: CRATES.sub(lambda found: found[1] + drawn + found[2], design), MODULES: "\n".join(parts)}
    return made | draw_speed.pictures()


if __name__ == "__main__":
    sys.exit(draw_speed.main(sys.argv[1:], pages()))
