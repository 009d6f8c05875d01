#!/usr/bin/env bash
# Runs the built programs with each write interrupted once by a signal, and requires that nothing is lost. Needs gcc.
# tools/built.py proves and builds the programs first, but where the gate just did. The last line is
# `N passed, M failed`; the status is 0 if M is 0.
set -u
unset CDPATH
cd -- "$(dirname -- "$0")/.." || exit 1
. tests/programs.sh
copy_programs fixdec fixdec_lines plural
gcc -shared -fPIC -O1 -Wall -Wextra -Werror tests/interrupted_writes.c -o "$room/interrupted.so" -ldl
judge $? 'tests/interrupted_writes.c compiles'

# row STATUS TEXT LINES PROGRAM WORD..: the result of the words, on the input $room/in, is this, and a write has been
# interrupted.
row() {
  LD_PRELOAD=$room/interrupted.so "$room/$4" "${@:5}" < "$room/in" > "$room/out" 2> "$room/err" 9> "$room/interruptions"
  local found=$?
  [ "$found" = "$1" ] && [ "$(cat "$room/out"; echo .)" = "$2." ] && [ "$(cat "$room/err"; echo .)" = "$3." ] &&
    [ -s "$room/interruptions" ]
  judge $? "${*:4}: status $found, $(wc -l < "$room/out") lines, $(head -c 200 "$room/err")"
}

: > "$room/in"
row 0 $'2.50\n' '' fixdec 250 shift:-2
row 1 '' $'start: syntax\n' fixdec 5.
row 0 $'one\nfew\n' '' plural ru 1 2
row 1 $'one\n' $'text 2: syntax\n' plural ru 1 x
seq 100000 > "$room/in"
row 0 "$(seq -f '%g0' 100000)"$'\n' '' fixdec_lines shift:1
printf '1\nx\n2\n' > "$room/in"
row 1 $'10\n\n20\n' $'line 2: start: syntax\n' fixdec_lines skip shift:1
finish
