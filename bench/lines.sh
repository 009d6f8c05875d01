#!/usr/bin/env bash
# Times the filter `fixdec_lines` beside what a shell user might take instead, side by side on the same lines:
#
#   bench/lines.sh [LINES] [PASSES]
#
# LINES lines `dddd.ddd` (by default 5,000,000) are rounded to two decimals, ties to even, by `fixdec_lines`, `numfmt`,
# `mawk`, Python's `decimal`, and `strtod`, a C program of `getline`, `strtod` and `printf`. In each of PASSES passes
# (5) they take turns. A row has the least processor time of a program, that time over the filter's, the median of the
# ratios of the passes, and the greatest memory. numfmt, mawk and the C program round a binary fraction, and numfmt
# rounds ties away from zero, so some of their lines differ: the last column counts them. The lines of the filter have
# to be those of Python.
#
# The second table has a field of lines `name7,city,dddd.ddd,tail`, without quotes and as CSV, beside `numfmt`, `mawk`
# and Python's `csv` and `decimal`. The third has lines `d,ddd.ddd` that are read and written in the form of a locale,
# beside the same numbers without one; all of its lines differ. The fourth has at most 1,000,000 of the plain lines
# written as amounts of money and as numbers of a locale, beside `numfmt` and Python's Babel. The fifth has at most
# 1,000,000 lines `ddd.dd` with K, M or T, which `read:en:K` reads, beside `numfmt --from=si`. It adds 1 to some of the
# products, so some of its lines differ.
#
# The last table has the instructions of a line: of the filter, of the filter with no call, which parses each line as
# a number and prints it, of the filter on a field and with locales, of the C program, and of one that only copies each
# line by `getline` and `fwrite`.
#
# Needs bash, the toolchain, a C compiler, and Debian's time, mawk, python3, python3-babel and valgrind. Take it on a
# machine that does nothing else.
set -euo pipefail
lines=${1:-5000000} passes=${2:-5}
unset CDPATH
cd -- "$(dirname -- "$0")/.."
for tool in /usr/bin/time cc numfmt mawk valgrind; do
  command -v $tool > /dev/null || { echo "missing: $tool" >&2; exit 1; }
done
python3 tools/built.py programs fixdec_lines
room=$(mktemp -d)
trap 'rm -rf "$room"' EXIT
cp crates/fixdec_lines/out/fixdec_lines "$room/fixdec_lines"
chmod +x "$room/fixdec_lines"

cat > "$room/lines.py" <<'PYTHON'
import random, sys
random.seed(7)
room = sys.argv[2]
names = ("plain", "fields", "grouped", "cents", "words")
plain, fields, grouped, cents, words = (open(f"{room}/{name}", "w") for name in names)
for line in range(int(sys.argv[1])):
    n = random.randrange(1000000, 10000000)
    plain.write("%d.%03d\n" % (n // 1000, n % 1000))
    fields.write("name%d,city,%d.%03d,tail\n" % (line % 10, n // 1000, n % 1000))
    grouped.write("%d,%03d.%03d\n" % (n // 1000000, n // 1000 % 1000, n % 1000))
    cents.write("%d.%02d\n" % (n // 1000, n // 10 % 100))
    words.write("%d.%02d%s\n" % (n // 10000, n // 100 % 100, "KMT"[n % 3]))
PYTHON
cat > "$room/field.py" <<'PYTHON'
import csv, sys
from decimal import Decimal, ROUND_HALF_EVEN
unit = Decimal("0.01")
writer = csv.writer(sys.stdout, lineterminator="\n")
for row in csv.reader(sys.stdin):
    row[2] = str(Decimal(row[2]).quantize(unit, rounding=ROUND_HALF_EVEN))
    writer.writerow(row)
PYTHON
cat > "$room/rounded.py" <<'PYTHON'
import sys
from decimal import Decimal, ROUND_HALF_EVEN
unit = Decimal("0.01")
write = sys.stdout.write
for line in sys.stdin:
    write(str(Decimal(line).quantize(unit, rounding=ROUND_HALF_EVEN)) + "\n")
PYTHON
cat > "$room/money.py" <<'PYTHON'
import sys
from decimal import Decimal
from babel.numbers import format_currency
write = sys.stdout.write
for line in sys.stdin:
    write(format_currency(Decimal(line), "EUR", locale="en") + "\n")
PYTHON
cat > "$room/strtod.c" <<'C'
#define _GNU_SOURCE
#include <stdio.h>
#include <stdlib.h>
int main(void) {
    char *line = 0;
    size_t room = 0;
    while (getline(&line, &room, stdin) > 0)
        printf("%.2f\n", strtod(line, 0));
}
C
cat > "$room/copy.c" <<'C'
#define _GNU_SOURCE
#include <stdio.h>
int main(void) {
    char *line = 0;
    size_t room = 0;
    for (ssize_t length; (length = getline(&line, &room, stdin)) > 0;)
        fwrite(line, 1, length, stdout);
}
C
for name in strtod copy; do
  cc -O2 -o "$room/$name" "$room/$name.c"
done
cat > "$room/table.py" <<'PYTHON'
import sys
from statistics import median
room, passes, names = sys.argv[1], int(sys.argv[2]), sys.argv[3:]
rows = {n: [tuple(map(float, l.split())) for l in open(f"{room}/{n}.times")] for n in names}
cpu = {n: [user + system for user, system, _ in rows[n]] for n in names}
ours = open(f"{room}/{names[0]}.out").read().split("\n")
print("\n| Program | CPU seconds | over ours | middle ratio | peak KiB | lines that differ |")
print("|---|---|---|---|---|---|")
for n in names:
    ratios = [a / b for a, b in zip(cpu[n], cpu[names[0]])]
    theirs = open(f"{room}/{n}.out").read().split("\n")
    differ = sum(a != b for a, b in zip(ours, theirs)) + abs(len(ours) - len(theirs))
    print("| %s | %.2f | %.2f | %.2f | %d | %d |" % (n, min(cpu[n]), min(cpu[n]) / min(cpu[names[0]]),
        median(ratios), max(r[2] for r in rows[n]), differ))
    if n.startswith("python3") and differ:
        sys.exit("the filter and Python's decimal differ")
PYTHON

# The real interpreter: a shim before it would be timed too.
python=$(python3 -c 'import sys; print(sys.executable)')
"$python" "$room/lines.py" "$lines" "$room"
# timed INPUT NAME COMMAND..: runs a command on an input, and notes its user and system time and its greatest memory.
timed() {
  /usr/bin/time -a -o "$room/$2.times" -f '%U %S %M' "${@:3}" < "$room/$1" > "$room/$2.out"
}
# table NAME..: prints the table of these, and compares their outputs with that of the first.
table() {
  "$python" "$room/table.py" "$room" "$passes" "$@"
}
round=round:-2:half-even:1
for ((pass = 0; pass < passes; pass++)); do
  timed plain fixdec_lines "$room/fixdec_lines" $round
  timed plain numfmt numfmt --format=%.2f --round=nearest
  timed plain mawk mawk '{printf "%.2f\n", $1}'
  timed plain python3 "$python" "$room/rounded.py"
  timed plain strtod "$room/strtod"
done
table fixdec_lines numfmt mawk python3 strtod
for ((pass = 0; pass < passes; pass++)); do
  timed fields 'fixdec_lines of a field' "$room/fixdec_lines" delimiter:, field:3 $round
  timed fields 'fixdec_lines of CSV' "$room/fixdec_lines" csv field:3 $round
  timed fields 'numfmt of a field' numfmt -d, --field 3 --format=%.2f --round=nearest
  timed fields 'mawk of a field' mawk -F, -v OFS=, '{$3 = sprintf("%.2f", $3); print}'
  timed fields 'python3 of CSV' "$python" "$room/field.py"
done
table 'fixdec_lines of a field' 'fixdec_lines of CSV' 'numfmt of a field' 'mawk of a field' 'python3 of CSV'
for ((pass = 0; pass < passes; pass++)); do
  timed plain 'without a locale' "$room/fixdec_lines" $round
  timed grouped 'read:en format:en-IN' "$room/fixdec_lines" read:en $round format:en-IN
done
table 'without a locale' 'read:en format:en-IN'

head -n 1000000 "$room/cents" > "$room/amounts"
head -n 1000000 "$room/plain" > "$room/rounded"
money='format:en:currency/EUR .00'
for ((pass = 0; pass < passes; pass++)); do
  timed amounts 'amounts of money' "$room/fixdec_lines" "$money"
  timed amounts 'numbers of a locale' "$room/fixdec_lines" format:en
  timed amounts 'numfmt --to=si' numfmt --to=si
  timed amounts 'Babel, amounts of money' /usr/bin/python3 "$room/money.py"
  timed rounded 'rounded amounts of money' "$room/fixdec_lines" "$money"
  timed rounded 'numbers of three decimals' "$room/fixdec_lines" format:en
done
table 'amounts of money' 'numbers of a locale' 'numfmt --to=si' 'Babel, amounts of money'
table 'rounded amounts of money' 'numbers of three decimals'

head -n 1000000 "$room/words" > "$room/compact"
for ((pass = 0; pass < passes; pass++)); do
  timed compact read:en:K "$room/fixdec_lines" read:en:K
  timed compact read:en:lenient:K "$room/fixdec_lines" read:en:lenient:K
  timed compact 'numfmt --from=si' numfmt --from=si
done
table read:en:K read:en:lenient:K 'numfmt --from=si'

some=$((lines < 100000 ? lines : 100000))
# instructions INPUT PROGRAM [WORD]..: those of a line, on average over some, without those of a run on no line.
instructions() {
  local counted=()
  head -n "$some" "$room/$1" > "$room/some"
  for input in "$room/some" /dev/null; do
    counted+=("$(valgrind --tool=callgrind --callgrind-out-file=/dev/null "${@:2}" 2>&1 > /dev/null < "$input" |
      sed -n 's/.*Collected : //p')")
  done
  echo $(((counted[0] - counted[1]) / some))
}
echo
echo "| Program | instructions a line |"
echo "|---|---|"
echo "| fixdec_lines | $(instructions plain "$room/fixdec_lines" $round) |"
echo "| fixdec_lines with no call | $(instructions plain "$room/fixdec_lines") |"
echo "| fixdec_lines of a field | $(instructions fields "$room/fixdec_lines" delimiter:, field:3 $round) |"
echo "| fixdec_lines of CSV | $(instructions fields "$room/fixdec_lines" csv field:3 $round) |"
echo "| read:en format:en-IN | $(instructions grouped "$room/fixdec_lines" read:en $round format:en-IN) |"
echo "| format:en | $(instructions amounts "$room/fixdec_lines" format:en) |"
echo "| read:en:K | $(instructions words "$room/fixdec_lines" read:en:K) |"
echo "| $money | $(instructions amounts "$room/fixdec_lines" "$money") |"
echo "| $money, rounded | $(instructions plain "$room/fixdec_lines" "$money") |"
echo "| strtod | $(instructions plain "$room/strtod") |"
echo "| a copy of each line | $(instructions plain "$room/copy") |"
