#!/usr/bin/env bash
# Sets the project up as README says: makes a clone of the last commit, without built files, and runs README's first
# command in it, which proves nothing and takes half a minute; installs the built programs, and runs README's other
# commands with them; and runs PROGRAMS' commands of GNU parallel, without which there is a line `not run: ..`, and a
# failure under ALL=1. tools/built.py proves and builds the programs first, but where the gate just did. The last line
# is `N passed, M failed`; the status is 0 if M is 0.
set -u
unset CDPATH
cd -- "$(dirname -- "$0")/.." || exit 1
. tests/programs.sh
copy_programs fixdec fixdec_lines plural
export BUILT_BY_GATE=1

command=$(sed -n 's/^\$ (\(cd crates.*\))$/\1/p' README.md | head -n 1)
[ -n "$command" ]
judge $? 'README has a first command'
git clone -q . "$room/clone" && found=$(cd "$room/clone" && eval "$command" 2> "$room/err") && [ "$found" = 2.50 ]
judge $? "$command: it writes '${found:-}', $(tail -n 1 "$room/err")"

bash tools/install.sh "$room/prefix" > "$room/log" 2>&1 && [ "$("$room/prefix/bin/fixdec" 250 shift:-2)" = 2.50 ]
judge $? "tools/install.sh: $(tail -n 1 "$room/log")"
sed -n '/^## Programs/,/^## Library/p' README.md | awk '/^```$/ { shown = !shown; next } shown' > "$room/transcript"
sed -n 's/^\$ //p' "$room/transcript" > "$room/commands"
mkdir "$room/table" &&
  (cd "$room/table" && PATH=$room/prefix/bin:$PATH bash -e ../commands) > "$room/out" 2>&1 &&
  cmp -s "$room/out" <(grep -v '^\$ ' "$room/transcript")
judge $? "README's commands by the installed programs: $(tail -n 1 "$room/out")"
# PROGRAMS' commands of GNU parallel, with small blocks: the first is for a file without a header, the second with one.
words="round:-2:half-even:1 'format:de:currency/EUR .00'"
sed -n "s/64M/40k/; /parallel -q/s| \.\.| $words|p" docs/PROGRAMS.md > "$room/commands"
[ "$(wc -l < "$room/commands")" = 2 ]
judge $? 'PROGRAMS has two commands of GNU parallel'
if command -v parallel > /dev/null; then
  mkdir "$room/blocks" && cd "$room/blocks" && seq -f '%.3f' 1 0.125 20000 > FILE || exit 1
  for header in '' header; do
    [ -z "$header" ] || sed -i '1i price' FILE
    head -n 1 ../commands > command && sed -i 1d ../commands
    eval "../fixdec_lines $header $words" < FILE > one && PATH=$room:$PATH bash -e command > many 2> log && cmp one many
    judge $? "parallel${header:+ with a header}: $(tail -n 1 log)"
  done
else
  missing parallel
fi
finish
