#!/usr/bin/env bash
# Does the tasks of docs/GUIDE.md as a reader does, each in an empty folder: writes the files of its blocks, runs the
# commands after each `$`, and compares what they print. Then it makes the two changes of CONTRIBUTING.md that the
# prover rejects, in a copy. tools/built.py proves and builds the programs and the C library first, but where the gate
# just did; `rt try` compiles the programs in Rattle, and proves nothing. Needs gcc, git and python3; what else is
# missing is a line `not run: ..`, and a failure under ALL=1: pkg-config, Python's headers and pip. The last line is
# `N passed, M failed`; the status is 0 if M is 0.
set -u
unset CDPATH
cd -- "$(dirname -- "$0")/.." || exit 1
. tests/programs.sh
copy_programs fixdec fixdec_lines plural
bash c/build.sh > "$room/log" 2>&1
judge $? "c/build.sh: $(tail -n 1 "$room/log")"
export FD_HOME=$PWD PKG_CONFIG_PATH=$PWD/c/out PYTHONPATH=$room/python PATH=$room:$PATH
skipped=()
command -v pkg-config > /dev/null || { skipped+=(pkg-config); missing pkg-config; }
if python3 -c 'import sysconfig, os; assert os.path.exists(sysconfig.get_path("include") + "/Python.h")' 2> /dev/null &&
  python3 -m pip --version > /dev/null 2>&1; then
  try 'pip install' python3 -m pip install --no-index --quiet --target "$room/python" ./python
else
  skipped+=(python3)
  missing "Python's headers and pip"
fi

# Task N is the section `## N. ..`. Its files go to $room/tasks/N, each by the name with a colon that ends the line
# before its block, and its commands to $room/commands/N, in order. The commands before the first task begin each task.
awk -v room="$room" '
  /^## / { task = $2 ~ /^[0-9]+\.$/ ? int($2) : $2 == "Before" ? 0 : "" }
  open && /^```$/ { open = 0; next }
  open { if (file != "") print > file; next }
  /^```/ {
    open = 1
    file = ""
    if (task != "" && $1 == "```console") file = sprintf("%s/commands/%d/%02d", room, task, ++count)
    else if (task != "" && name != "") file = room "/tasks/" task "/" name
    folder = file
    sub("/[^/]*$", "", folder)
    if (file != "") system("mkdir -p \"" folder "\"")
  }
  NF { name = "" }
  /`[^`]+`:$/ { name = $0; sub(/`:$/, "", name); sub(/.*`/, "", name) }
' docs/GUIDE.md

# follow TASK BLOCK: the commands of a block print what it shows.
follow() {
  local tool
  for tool in "${skipped[@]}"; do
    ! grep -q "^\$ .*$tool" "$2" || return
  done
  sed -n 's/^\$ //p' "$2" > "$room/script"
  (cd "$room/tasks/$1" && bash "$room/script") > "$room/out" 2> "$room/err"
  cmp "$room/out" <(grep -v '^\$ ' "$2") > "$room/log" 2>&1
  judge $? "task $1: $(head -n 1 "$room/script"): $(head -c 200 "$room/out" | tr '\n' '|') $(tail -n 1 "$room/err")"
}

for task in 1 2 3 4 5 6 7; do
  [ -n "$(find "$room/tasks/$task" -name main.rt)" ] && ls "$room/tasks/$task"/*.{c,py} > "$room/out" &&
    [ "$(ls "$room/commands/$task" | wc -l)" -ge 4 ]
  judge $? "task $task is done in Rattle, C and Python"
  for block in "$room/commands/0"/* "$room/commands/$task"/*; do
    follow "$task" "$block"
  done
done
[ ! -e "$room/tasks/8" ]
judge $? 'all tasks are done'

# ---- CONTRIBUTING
copy_repository "$room/copy"
changed=crates/decimal_digits/src/rounding/remainder.rt
# shown FUNCTION: the block of the page with what the check of a function prints.
shown() {
  awk -v command="$ rt check --only $1" '$0 == command { here = 1 } open && /^```$/ { exit } open
    here && $0 == "```text" { open = 1 }' CONTRIBUTING.md
}
# rejected FUNCTION: the check of the function fails, with the lines of the page, in which `..` is any text.
rejected() {
  shown "$1" > "$room/wanted"
  (cd "$room/copy/crates/decimal_digits" && rt check --only "$1") > "$room/out" 2>&1
  [ $? != 0 ] && ! cmp -s "$changed" "$room/copy/$changed" &&
    python3 - "$room/wanted" "$room/out" > "$room/log" << 'END'
import re
import sys

wanted, found = (open(path, encoding="utf-8").read().splitlines() for path in sys.argv[1:])
for line in wanted:
    pattern = re.sub(r":\d+:\d+:", r":\\d+:\\d+:", ".*".join(map(re.escape, line.split(".."))))
    if not any(re.fullmatch(pattern, it) for it in found):
        sys.exit(print(f"it does not print: {line}") or 1)
sys.exit(len(wanted) < 4)
END
  judge $? "CONTRIBUTING, $1: $(cat "$room/log")"
  cp "$changed" "$room/copy/$changed"
}
body=$(sed -n 's/^In the body change the line `\(.*\)` to `\(.*\)`\..*/s|\1|\2|/p' CONTRIBUTING.md)
sed -i "${body:-q}" "$room/copy/$changed"
rejected rounds_up
clause=$(grep -m 1 '^    ensures small { .* }$' CONTRIBUTING.md)
awk -v clause="$clause" '{ print } /^    ensures odd {/ { print clause }' "$changed" > "$room/copy/$changed"
rejected split_by
finish
