#!/usr/bin/env python3
"""Has programs and libraries that are proved and built of the sources as they are:

    tools/built.py programs NAME..          crates/NAME/out/NAME
    tools/built.py libraries NAME..         crates/*/out/rlib of the libraries among these crates and below them
    tools/built.py archive                  crates/fixed_decimal_ffi/out/libfixed_decimal_ffi.a
    tools/built.py copy FOLDER NAME..       a copy of the crates, with the libraries below these, for `rt` there
    tools/built.py gate                     runs `rt ci`, and notes what it has built

What the gate or this script has built of the same sources is taken. The rest is removed and built again, with a line
for each crate. With BUILT_BY_GATE set nothing but the exports of the archive is proved, and the rest is an error.
"""
import contextlib
import fcntl
import json
import os
import shutil
import subprocess
import sys
import tempfile

ROOT = os.path.dirname(os.path.dirname(os.path.abspath(__file__)))
STATIC = "fixed_decimal_ffi"
# `rt ci` removes it with the rest of this folder.
NOTE = f"{ROOT}/crates/{STATIC}/out/built.json"

KIT = os.path.dirname(os.path.realpath(shutil.which("rt") or sys.exit("rt is missing, the command of the Rattle kit")))
if not os.path.isfile(f"{KIT}/rtlib.py"):
    sys.exit(f"{KIT}/rt is not the command of the Rattle kit: there is no rtlib.py beside it")
sys.dont_write_bytecode = True
sys.path.insert(0, KIT)
import rtlib


def stamps(crates):
    """The sum of what each crate is built of, with the sources of the crates below, by its name."""
    made, known = rtlib.Crate.stamp, {}

    def once(crate):
        if crate not in known:
            known[crate] = made(crate)
        return known[crate]

    rtlib.Crate.stamp = once
    try:
        return {name: crate.stamp() for name, crate in crates.items()}
    finally:
        rtlib.Crate.stamp = made


def product(crate):
    """The file that is made of a crate; of a library the one with the sum of its files."""
    if crate.is_program:
        return f"{crate.folder}/out/{crate.name}"
    return f"{crate.folder}/out/lib{crate.name}.a" if crate.is_static else f"{crate.rlib}/format"


def stamp_file(library):
    """The file of `rt` with the stamp of a library. Under `rt ci` it writes none."""
    return f"{library.folder}/out/rlib/stamp"


def remove(path):
    with contextlib.suppress(FileNotFoundError):
        os.remove(path)


def link(one, other):
    """Gives a file of a library a second name. `rt` removes such files before it makes them anew."""
    try:
        os.link(one, other)
    except OSError:
        shutil.copy(one, other)


def notes():
    try:
        with open(NOTE, encoding="utf-8") as file:
            return json.load(file)
    except (OSError, ValueError):
        return {}


def note(crates, sources):
    """Notes which crates are built of these sources, if they are still these: libraries as `rt` does."""
    now, found = stamps(crates), notes()
    for name, crate in crates.items():
        if now[name] != sources[name] or not os.path.isfile(product(crate)):
            continue
        if crate.makes_rlib():
            remove(stamp_file(crate))
            with open(stamp_file(crate), "w", encoding="utf-8") as file:
                file.write(now[name])
        else:
            found[name] = [now[name], rtlib.sum_of(product(crate))]
    os.makedirs(os.path.dirname(NOTE), exist_ok=True)
    with open(f"{NOTE}.new", "w", encoding="utf-8") as file:
        json.dump(found, file)
    os.replace(f"{NOTE}.new", NOTE)


def is_built(crate, sources):
    if crate.makes_rlib():
        return rtlib.text_of(stamp_file(crate)) == sources[crate.name] and os.path.isfile(product(crate))
    return notes().get(crate.name) == [sources[crate.name], rtlib.sum_of(product(crate))]


def below(crates, names):
    """The libraries among these crates and below them, the lowest first."""
    found = []
    for name in names:
        found += [it for it in [*crates[name].below(), crates[name]] if it.makes_rlib() and it not in found]
    return found


def run(crate, words):
    """Runs `rt` in the folder of a crate; if it builds nothing, ends with the last lines of its output.

    `rt run` has the status of the program, which may need words.
    """
    with tempfile.TemporaryFile("w+", errors="replace") as log:
        how = {"cwd": crate.folder, "stdin": subprocess.DEVNULL, "stdout": log, "stderr": subprocess.STDOUT}
        status = subprocess.run(["rt", *words], **how).returncode
        log.seek(0)
        if status and not crate.is_program or not os.path.isfile(product(crate)):
            sys.exit("\n".join([*log.read().split("\n")[-20:], f"{crate.name} was not built"]))


def unbuilt(crates, names):
    """Which of these crates and of the libraries below them are not built, the lowest first."""
    sources = stamps(crates)
    others = [crates[name] for name in names if not crates[name].makes_rlib() and not is_built(crates[name], sources)]
    libraries = below(crates, [name for name in names if crates[name].makes_rlib() or crates[name] in others])
    return [crate for crate in libraries if not is_built(crate, sources)] + others


@contextlib.contextmanager
def alone():
    """Holds the lock of the clone: one run at a time builds, and copies what is built."""
    with open(__file__, encoding="utf-8") as lock:
        try:
            fcntl.flock(lock, fcntl.LOCK_EX | fcntl.LOCK_NB)
        except BlockingIOError:
            print("waits for another tools/built.py in this clone", file=sys.stderr, flush=True)
            fcntl.flock(lock, fcntl.LOCK_EX)
        yield


def require_gate(todo):
    """Ends if these crates have to be built by the gate."""
    lacking = " ".join(crate.name for crate in todo if crate.name != STATIC)
    if lacking and os.environ.get("BUILT_BY_GATE"):
        sys.exit(f"BUILT_BY_GATE is set, and no gate has built {lacking} of these sources: python3 tools/built.py gate")


def build(crates, names):
    """Proves and builds what of these crates and the libraries below them is not built, if no other run just did."""
    if todo := unbuilt(crates, names):
        require_gate(todo)
        with alone():
            build_each(crates, unbuilt(crates, names))


def build_each(crates, todo):
    """Proves and builds these crates, with a line for each."""
    if len(todo) > 1:
        print(f"proves and builds {len(todo)} crates; all take about 15 minutes the first time", file=sys.stderr)
    jobs = ["--jobs", os.environ["JOBS"]] if os.environ.get("JOBS") else []
    for number, crate in enumerate(todo):
        print(f"proves and builds {crate.name}, {number + 1} of {len(todo)}", file=sys.stderr, flush=True)
        sources = stamps(crates)
        if crate.makes_rlib():
            run(crate, ["lib", *jobs])
            continue
        remove(product(crate))
        run(crate, ["run" if crate.is_program else "lib", *jobs])
        note({crate.name: crate}, sources)


def copy(crates, folder, names):
    """Copies the crates to a folder, with the libraries below the named ones and what `rt check` has kept of these."""
    used = dict.fromkeys(crate.name for name in names for crate in crates[name].below())
    require_gate(unbuilt(crates, used))
    with alone():
        build_each(crates, unbuilt(crates, used))
        copy_built(folder, used, names)


def copy_built(folder, used, names):
    """Copies the crates, the libraries that are used, and what is kept of the named crates."""
    # A module may have the name `out` too.
    is_crate = lambda path: os.path.dirname(path) == f"{ROOT}/crates"
    shutil.copytree(f"{ROOT}/crates", f"{folder}/crates", ignore=lambda path, _: ["out"] if is_crate(path) else [])
    shutil.copy(f"{ROOT}/crates.txt", folder)
    shutil.copy(f"{ROOT}/HANDLES", folder)
    for name in used:
        shutil.copytree(f"{ROOT}/crates/{name}/out/rlib", f"{folder}/crates/{name}/out/rlib", copy_function=link)
    for name in names:
        if os.path.isdir(f"{ROOT}/crates/{name}/out/incremental"):
            shutil.copytree(f"{ROOT}/crates/{name}/out/incremental", f"{folder}/crates/{name}/out/incremental")


def gate(crates):
    """Runs `rt ci`, and notes what it has built: all that is there afterwards, as all else is removed first.

    `rt ci` puts the libraries that are there back over its own, which are proved over each other and fit no others. So
    they stay only if all are of the sources.
    """
    libraries, sources = [crate for crate in crates.values() if crate.makes_rlib()], stamps(crates)
    if not all(is_built(crate, sources) for crate in libraries):
        for crate in libraries:
            shutil.rmtree(f"{crate.folder}/out/rlib", ignore_errors=True)
    for crate in crates.values():
        if not crate.makes_rlib():
            remove(product(crate))
    remove(NOTE)
    status = subprocess.run(["rt", "ci"], cwd=ROOT).returncode
    # Under another status it was stopped.
    if status in (0, 1):
        note(crates, sources)
    return status


def main(verb="", *names):
    crates = {crate.name: crate for crate in rtlib.crates_below(f"{ROOT}/crates")}
    of_names = names[1:] if verb == "copy" else names
    unknown = [name for name in of_names if name not in crates]
    if unknown:
        sys.exit(f"no such crate: {unknown[0]}")
    if verb == "programs" and names and all(crates[name].is_program for name in names):
        build(crates, names)
    elif verb == "libraries" and names:
        build(crates, [crate.name for crate in below(crates, names)])
    elif verb == "archive" and not names:
        build(crates, [STATIC])
    elif verb == "copy" and len(names) > 1:
        copy(crates, os.path.abspath(names[0]), names[1:])
    elif verb == "gate" and not names:
        with alone():
            return gate(crates)
    else:
        print(__doc__, end="", file=sys.stderr)
        return 2
    return 0


if __name__ == "__main__":
    sys.exit(main(*sys.argv[1:]))
