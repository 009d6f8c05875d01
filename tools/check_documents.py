#!/usr/bin/env python3
"""Checks the documents against the tree: `python3 tools/check_documents.py`. The last line is `N passed, M failed`.

The commands of README and PROGRAMS are run by the programs that are built of the sources as they are (tools/built.py).
With BUILT_BY_GATE set all of them have to be built.
"""
import functools
import glob
import os
import re
import subprocess
import sys
import tempfile

CRATES = ["decimal_digits", "decimal_unsigned", "fixed_decimal", "decimal_format", "plural_rules", "locale_data",
          "locale_names", "number_format", "number_skeleton", "conversions", "cli", "fixed_decimal_c"]
LIBRARIES = [*CRATES[:4], "locale_data", "locale_names", "number_format", "number_skeleton"]
# Crates whose proofs cite of the libraries only the lemmas for callers.
CALLERS = ["uses", "plural_rules", "decimal_format", "locale_data", "locale_names", "number_format", "number_skeleton",
           "conversions", "cli", "fixed_decimal_c"]
# Modules and functions that are public for the crates of this repository alone.
INTERNAL = re.compile(r"/src/(?:rounding/|digits/packed/|digits/steps|ops|uint_iterator|block|decimal/parse/|reader/"
                      r"|search|tag|tables/)")
HIDDEN = {"from_bcd_digits", "from_short_text", "scan_from", "lowest_of"}
OUTSIDE = re.compile(r"\b(?:document|paper|issue|session|request|promise|definition) \d|\b[DTRW]\d{1,2}\b"
                     r"|/(?:work|tmp|root|home)/")

# The inputs of programs that check rows, and the files that each is made of.
ROWS = {"crates/vectors/stdin": ["crates/vectors/rows/*"],
        "crates/cli_vectors/stdin": ["crates/cli_vectors/rows/*", "tests/rows/*skeletons.tsv"]}

# Lines of these kinds of files have at most 120 columns, except, by kind or by path: imports in Rattle, and a line of
# the template of bash's completions, which is written as it is.
WRITTEN = (".rt", ".rt.txt", ".antt", ".sh", ".py", ".pyi", ".c", ".h", ".rs", ".js", ".cc", ".cpp", ".sql")
LONG = {".rt": r"\s*(?:pub )?(?:ghost )?use ", ".antt": r"\s*(?:pub )?(?:ghost )?use ",
        "tools/make_completions.py": r" *\[\[ \$\{head,,\}\$\{item,,\} == "}

failures, passes = [], 0


def check(good, message):
    """Counts a check, and keeps its message if it fails."""
    global passes
    if good:
        passes += 1
    else:
        failures.append(message)


def read(path):
    with open(path, encoding="utf-8") as file:
        return file.read()


os.chdir(os.path.dirname(os.path.dirname(os.path.abspath(__file__))))
LISTED = subprocess.run(["git", "ls-files"], capture_output=True, text=True, check=True).stdout
FILES = [path for path in LISTED.split("\n") if os.path.isfile(path)]
CODE = {path: read(path) for path in FILES if path.endswith((".rt", ".antt"))}
DOCUMENTS = [path for path in FILES if path.endswith(".md")]
# The pages of which README has a link to each.
PAGES = [path for path in DOCUMENTS if re.fullmatch(r"(?:docs/)?[A-Z]+\.md", path)
         and path not in ("README.md", "docs/MODULES.md")]


def quoted(text):
    return re.findall(r"`([^`\n]+)`", text)


def blocks(document):
    """The blocks of code of a page: the language, and the text."""
    return re.findall(r"^```([^\n`]*)\n(.*?)^```$", read(document), re.M | re.S)


def check_scripts():
    """A file that begins with the name of its interpreter can be executed. A script of a shell finds its own folder
    whatever the folder's name is, and without CDPATH."""
    for path in FILES:
        with open(path, "rb") as file:
            if file.read(2) == b"#!":
                check(os.access(path, os.X_OK), f"{path}: it begins with #! and is not executable")
        if path.endswith(".sh"):
            own = [line for line in read(path).splitlines() if re.search(r'dirname\b.*"\$\{?(0|BASH_SOURCE)', line)]
            check(all("dirname -- " in line for line in own), f"{path}: `dirname -- \"$0\"` finds its folder")
            enters = any(re.search(r"\bcd\b", line) for line in own)
            check(not enters or "\nunset CDPATH\n" in read(path), f"{path}: it does not unset CDPATH")


@functools.cache
def anchors_of(path):
    """The anchors of the headings of a page."""
    heads = re.findall(r"^#+ (.*)", read(path), re.M)
    return {re.sub(r"[^\w -]", "", head).lower().replace(" ", "-") for head in heads}


def check_links():
    """A link leads to a file, and to one of its headings; and README has a link to each page."""
    for document in DOCUMENTS:
        for target, heading in re.findall(r"\]\(([^)#:]*)(?:#([^)]*))?\)", read(document)):
            path = os.path.normpath(os.path.join(os.path.dirname(document), target)) if target else document
            good = os.path.exists(path) and (not heading or heading in anchors_of(path))
            check(good, f"{document}: the link {target}#{heading} leads nowhere")
    for path in PAGES:
        check(f"]({path})" in read("README.md"), f"README.md: there is no link to {path}")


def check_quotes():
    """Quoted clauses and definitions are lines of the code, and a block after the name of a program is the program. The
    pages of the reference are compared as a whole with what their script makes of the code."""
    lines = {line.strip() for text in CODE.values() for line in text.splitlines()}
    for document in [path for path in DOCUMENTS if not path.startswith("docs/reference/")]:
        for path, block in re.findall(r"`(crates/[\w/]+/main\.rt)`:\n\n```rust\n(.*?)```", read(document), re.S):
            check(block == CODE.get(path, block), f"{document}: the block after `{path}` is not that file")
        for language, block in blocks(document):
            for line in block.splitlines() if language in ("rust", "antt") else []:
                if line.strip() and (language == "antt" or line.strip().startswith("ensures")):
                    check(line.strip() in lines, f"{document}: this line is not in the code: {line.strip()}")


def functions(path):
    """The functions of a file up to its tests: whether each is public, its name, and its clauses."""
    found, public_block = [], False
    for line in CODE[path].split("\n#[cfg(test)]\nmod tests {")[0].splitlines():
        if re.match(r"(?:pub )?(?:impl|trait)\b", line):
            public_block = line.startswith("pub trait")
        if named := re.match(r"\s*(pub )?(?:pub\(\w+\) )?(?:unsafe )?(?:const )?(?:extern \"C\" )?fn (\w+)", line):
            found.append((bool(named[1]) or public_block and line.startswith(" "), named[2], set()))
        elif (clause := re.match(r"\s*ensures\*? ?(\w*) ?\{", line)) and found:
            found[-1][2].add(clause[1] or "ensures")
    return found


def check_proved():
    """Each row of PROVED names functions and clauses of its files."""
    folder = ""
    for line in read("docs/PROVED.md").splitlines():
        folder = (re.findall(r"[Bb]elow `(crates/[\w/]*)`", line) or [folder])[0]
        cells = [cell.strip() for cell in line.strip("|").split("|")]
        if not line.startswith("|") or len(cells) != 4 or not quoted(cells[3]):
            continue
        promise, names, clauses, files = cells[0], *map(quoted, cells[1:])
        paths = [folder + file for file in files]
        for path in paths:
            check(path in CODE, f"PROVED: there is no file {path}")
        named = [it for path in paths if path in CODE for it in functions(path) if it[1] in names]
        for name in names:
            check(any(it[1] == name for it in named), f"PROVED: {promise[:50]}..: there is no function {name}")
        members = {it for path in paths for it in re.findall(r"^\s+ghost (\w+)\s*[=:]", CODE.get(path, ""), re.M)}
        for clause in clauses:
            good = clause in members or any(clause in it[2] for it in named)
            check(good, f"PROVED: {promise[:50]}..: {names} have no clause {clause}")


def check_public():
    """The reference names each public type and function of the libraries, but for those of `INTERNAL`, and PROVED each
    law."""
    text = "\n".join(read(path) for path in DOCUMENTS if path == "CALLING.md" or path.startswith("docs/reference/"))
    named = set(re.findall(r"\w+", " ".join(quoted(text) + re.findall(r"```.*?```", text, re.S))))
    laws = set(quoted(read("docs/PROVED.md")))
    for path, text in CODE.items():
        if re.search(r"/src/\w*laws\.rt$", path):
            for public, name, _ in functions(path):
                check(name in laws or not public, f"PROVED: the law {name} is missing ({path})")
        elif path.split("/")[1] in LIBRARIES and "/src/" in path and not INTERNAL.search(path):
            names = re.findall(r"^pub (?:struct|enum|trait|type|const) (\w+)", text, re.M)
            for name in [*names, *(it[1] for it in functions(path) if it[0])]:
                check(name in named | HIDDEN, f"the reference: {name} is missing ({path})")


def parts_of(names):
    """The parts of a list between its commas, outside of inner lists."""
    depth, parts = 0, [""]
    for char in names:
        depth += (char == "{") - (char == "}")
        if char == "," and depth == 0:
            parts.append("")
        else:
            parts[-1] += char
    return [part.strip() for part in parts]


def names_in(path):
    """The names in an import, each with its path: `a.{B.{c, d}, E.f}` has a.B.c, a.B.d and a.E.f."""
    start, _, names = path.partition("{")
    if not names:
        return [path]
    return [start + name for part in parts_of(names.rpartition("}")[0]) for name in names_in(part)]


def imports_of(text):
    """The names that a text imports for proofs, each with its path."""
    uses = re.findall(r"^(?:pub )?(?:ghost )?use Rattle\.([^;\n]+)", text, re.M)
    return [name for use in uses for name in names_in(use)]


def check_widths():
    """Lines have at most 120 columns, but for those of `LONG`."""
    for path in FILES:
        if path.endswith(WRITTEN):
            longer = LONG.get(path) or LONG.get(os.path.splitext(path)[1], "(?!)")
            found = [line[:60] for line in read(path).split("\n") if len(line) > 120 and not re.match(longer, line)]
            check(not found, f"{path}: lines of more than 120 columns: {found}")


def check_code():
    """Callers cite Calling alone, nothing cites what is not in the repository, and each file that a script makes is
    what the script writes: the tables of locales, the pictures, the reference."""
    for path in FILES:
        if path != "LICENSE" and not path.startswith("tools/"):
            rows = path in ROWS or "/rows/" in path
            found = [line.strip()[:80] for line in read(path).splitlines()
                     if OUTSIDE.search(line) and (line.startswith("#") or "\t" not in line or not rows)]
            check(not found, f"{path}: this cites what is not in the repository: {found}")
    for path, text in CODE.items():
        if path.split("/")[1] in CALLERS:
            for name in imports_of(text):
                if cited := re.match(r"(?:decimal_digits|decimal_unsigned|fixed_decimal)\.proofs\.(\w+)", name):
                    check(cited[1] == "Calling", f"{path}: cites {cited[1]}, and callers cite Calling alone")
    scripts = [path for path in FILES if re.fullmatch(r"tools/.*\.py", path)]
    scripts = [path for path in scripts if "--check" in read(path).split('"""')[1]]
    check(len(scripts) >= 3, f"tools: only these scripts take --check: {scripts}")
    for script in scripts:
        made = subprocess.run([sys.executable, script, "--check"], capture_output=True, text=True)
        check(made.returncode == 0, made.stderr.strip())


def check_rows():
    """The input of each program that checks rows is what is in its files of rows, and the output has their number."""
    for path, sources in ROWS.items():
        rows = "".join(read(it) for source in sources for it in sorted(glob.glob(source)))
        check(read(path) == rows, f"{path}: run `cat {' '.join(sources)} > {path}`")
    # Each line of this one is a row, unless it is a comment or blank.
    count = len(re.findall(r"^(?!#[^\t\n]*$|$).", read("crates/cli_vectors/stdin"), re.M))
    check(f"{count} rows hold, 0 fail" in read("crates/cli_vectors/stdout"), f"crates/cli_vectors/stdout: {count} rows")


def lines_of(paths):
    """The number of lines of files, and of files."""
    return f"{sum(CODE[path].count(chr(10)) for path in paths):,} lines in {len(paths)} files"


def specs_of_run():
    """The files of definitions that the contract of `run` cites, and those that these cite."""
    text = CODE["crates/fixed_decimal/src/runs.rt"]
    contract = re.search(r"^pub fn run<.*?^\{", text, re.M | re.S)[0]
    words = set(re.findall(r"\w+", contract))
    left = [name for name in imports_of(text) if name.rpartition(".")[2] in words]
    found = set()
    while left:
        path = re.sub(r"^(\w+)\.specs\.(\w+).*", r"crates/\1/specs/\2.antt", left.pop())
        if path in CODE and path not in found:
            found.add(path)
            left += imports_of(CODE[path])
    return found


def check_help():
    """PROGRAMS and `--help` say the same of each call."""
    calls = re.search(r'const CALLS: &str = "\n(.*?)\n\n', CODE["crates/cli/src/program/help.rt"], re.S)[1]
    table = re.search(r"^\| Call \| .*\n((?:\|.*\n)+)", read("docs/PROGRAMS.md"), re.M)[1]
    rows = re.findall(r"^\| `(.*?)` \| (.*?) \|", table, re.M)
    check(rows == re.findall(r"^(\S+) +(.*)", calls, re.M), f"PROGRAMS: the calls are not those of --help: {rows}")


def check_versions():
    """The pages name the version of the interface of C, and PROGRAMS that of the programs."""
    interface = re.search(r"^#define FD_VERSION (\d+)$", read("c/fixed_decimal.h"), re.M)[1]
    for text in [f"libfixed_decimal.so.{interface}", f"it is {interface}, as `FD_VERSION`"]:
        check(text in read("docs/C.md"), f"docs/C.md: {text}")
    for document in set(DOCUMENTS) - {"CHANGELOG.md"}:
        for found in re.findall(r"\blibfixed_decimal\.so\.(\d+)", read(document)):
            check(found == interface, f"{document}: libfixed_decimal.so.{found}, but the version is {interface}")
    version = re.search(r'const VERSION: &str = "(.*)";', CODE["crates/cli/src/program/help.rt"])[1]
    check(f"plural {version}" in read("docs/PROGRAMS.md"), f"docs/PROGRAMS.md: plural {version}")


def check_counts():
    """The documents count lines of definitions, lines of constants and wrong bodies as they are."""
    specs = [path for path in CODE if re.match(rf"crates/(?:{'|'.join(CRATES)})/specs/(?!Lib)", path)]
    edits = [path.split("/")[-2] == "must-fail" for path in FILES if path.endswith(".edit")]
    for document, counted in [
        ("README.md", f"{lines_of(specs)}. Of these `run` cites {lines_of(specs_of_run())}"),
        ("docs/DESIGN.md", f"{sum(edits)} of {len(edits)} are in `must-fail/`"),
        ("docs/PROVED.md", f"{sum(CODE[path].count(chr(10)) for path in CODE if '/src/tables/' in path):,} lines"),
    ]:
        check(counted in re.sub(r"\s+", " ", read(document)), f"{document}: {counted}")


def check_rejection(path):
    """The comment `# rejected:` of a wrong body names a function of the file that is changed, or of its crate if that
    file has none of this name, and a clause of it."""
    comment = re.search(r"^# rejected: (?:\w+::)*(\w+) \| (?:its type: .+|([^,\n]+)(?:, .+)?)$", read(path), re.M)
    check(comment, f"{path}: no comment `# rejected: FUNCTION | CLAUSE`")
    if not comment:
        return
    name, wanted = comment.groups()
    source = re.search(r"^file: (.*)", read(path), re.M)[1].strip()
    sources = [it for it in CODE if it.startswith(f"crates/{path.split('/')[1]}/src/")]
    found = [it[2] for file in sources if file.endswith(f"/{source}") for it in functions(file) if it[1] == name]
    found = found or [it[2] for file in sources for it in functions(file) if it[1] == name]
    check(found, f"{path}: `# rejected:` names {name}, which is no function of {source}")
    good = not wanted or "-" in wanted or wanted == "the invariant of the loop" or wanted.startswith("the requires of ")
    # A method without clauses has those of its trait.
    good = good or any(not it or wanted in it or it == {"ensures"} and wanted == "its only clause" for it in found)
    check(good or not found, f"{path}: {name} has no clause `{wanted}`, but {found}")


def check_wrong_bodies():
    """Each text that a wrong body changes is in its file exactly once, after the changes before it. The function and
    the clause that reject it are there (tools/wrong_bodies.py)."""
    for path in FILES:
        if not path.endswith(".edit"):
            continue
        check_rejection(path)
        crate, texts, file, old = path.split("/")[1], {}, "", ""
        for line in read(path).splitlines():
            word, _, rest = line.partition(": ")
            if word == "file":
                file = f"crates/{crate}/{rest.strip()}"
            elif word == "old":
                old = rest
            elif word in ("new", "new:"):
                text = texts.get(file, CODE.get(file, ""))
                check(text.count(old) == 1, f"{path}: {file} has this {text.count(old)} times: {old}")
                texts[file] = text.replace(old, rest)


def check_design():
    """Each file that DESIGN names is there, and each module says in its first comment what it holds."""
    for name in set(re.findall(r"`([\w./]+\.(?:rt|antt|pyi?|h|c|rs|sh|tsv|txt))`", read("docs/DESIGN.md"))):
        check(any(f"/{path}".endswith(f"/{name}") for path in FILES), f"DESIGN: there is no file {name}")
    for path in FILES:
        if re.fullmatch(r"crates/\w+/README\.md", path):
            bare = re.findall(r"^\| (`.*?`) \| *\|", read(path), re.M)
            check(not bare, f"{path}: no comment says what {bare} hold")


def is_built(program):
    """Whether a program is built of the sources as they are."""
    run = subprocess.run([sys.executable, "tools/built.py", "programs", program], capture_output=True,
                         env={**os.environ, "BUILT_BY_GATE": "1"})
    return run.returncode == 0


def check_examples():
    """Each `$ ..` of README and PROGRAMS writes what follows it, if its program is built. `cat FILE` shows an input.
    `tests/setting_up.sh` runs the command with `rt`, and `tests/guide.sh` the commands of the guide."""
    folders = {name: os.path.abspath(f"crates/{name}/out") for name in ["fixdec", "fixdec_lines", "plural"]}
    unbuilt = {name for name in folders if not is_built(name)}
    check(not unbuilt or not os.environ.get("BUILT_BY_GATE"), f"these programs are not built: {sorted(unbuilt)}")
    for document in ["README.md", "docs/PROGRAMS.md"]:
        with tempfile.TemporaryDirectory() as room:
            for block in [text for _, text in blocks(document) if text.startswith("$ ")]:
                for command, wanted in re.findall(r"^\$ (.*)\n((?:(?!\$ ).*\n)*)", block, re.M):
                    if command.startswith("cat "):
                        with open(f"{room}/{command[4:]}", "w", encoding="utf-8") as file:
                            file.write(wanted)
                    elif not unbuilt.intersection(command.split(" ")) and " rt " not in command:
                        run = subprocess.run(["bash", "-c", command], capture_output=True, text=True, cwd=room,
                                             env={"PATH": ":".join([*folders.values(), "/usr/bin", "/bin"])})
                        written = run.stdout + run.stderr
                        check(written == wanted, f"{document}: `{command}` writes {written!r}")


for part in [check_scripts, check_links, check_quotes, check_proved, check_public, check_widths, check_code, check_rows,
             check_help, check_versions, check_counts, check_wrong_bodies, check_design, check_examples]:
    part()
print("\n".join([*failures, f"{passes} passed, {len(failures)} failed"]))
sys.exit(1 if failures else 0)
