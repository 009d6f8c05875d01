#!/usr/bin/env bash
# Tests in a few minutes what needs no proof: `rt try` compiles the program of the programs' rows and runs it on them;
# and the documents, the pictures, the texts of wrong bodies, the modules and the layout of sources are checked. Nothing
# is proved, so it says nothing about contracts: `bash tests/all.sh` does. Needs the Rattle kit, git, pkill and python3.
# The last line is `N passed, M failed`; the status is 0 if M is 0.
set -u
unset CDPATH
cd -- "$(dirname -- "$0")/.." || exit 1
. tests/programs.sh
# One step of the interpreter, since it would not end on these rows: the compiled program is what runs. It has a
# session of its own, which ends with this script.
(cd crates/cli_vectors && exec setsid rt try --steps 1 --seconds 300 < rows/programs.tsv) > "$room/rows" 2>&1 &
rows=$!
trap 'trap "" TERM; pkill -s $rows; rm -rf "$room"' EXIT
for script in tools/check_documents.py tools/check_modules.py; do
  python3 "$script" > "$room/log" 2>&1
  judge $? "$script: $(tail -n 5 "$room/log")"
done
copy_repository "$room/copy"
git ls-files -z 'crates/*.rt' > "$room/sources"
formatted=1
for crate in "$room"/copy/crates/*/; do
  (cd "$crate" && rt fmt) || formatted=0
done > "$room/log" 2>&1
[ $formatted = 1 ] && [ -s "$room/sources" ] &&
  xargs -0 -I{} cmp {} "$room/copy/{}" < "$room/sources" > "$room/log" 2>&1
judge $? "the layout of rt fmt: $(tail -n 3 "$room/log")"
wait
grep -qx '[1-9][0-9]* rows hold, 0 fail' "$room/rows" && grep -q '^run=ended status=0 ' "$room/rows"
judge $? "the rows of the programs: $(tail -n 5 "$room/rows")"
finish
