#!/usr/bin/env bash
# Prints the tables of hosts: fd_format of the C library beside NumberFormatter::write in Rattle and beside ICU,
# fd_format_range beside ICU, the time in which a unit is found, the Rust crate beside the C library, SQLite beside its
# own printf, the Python module beside decimal, Babel and the program, and a column on the workers of Dask beside one
# program and beside a Dask map of decimal.Decimal:
#
#   bench/hosts.sh [LINES]        by default 5000000
#
# It proves what the gate has not built of the same sources; WORK, a folder outside the project, takes what is built in
# Rattle. It needs cargo, gcc, libicu-dev, pkg-config, sqlite3, libsqlite3-dev, python3-distributed, python3-babel, and
# pip and the headers of that Python; and four idle processors.
set -euo pipefail
. "$(dirname -- "$0")/../diff/build.sh"
cd "$project"
lines=${1:-5000000}
for python in python3 /usr/bin/python3 ''; do
  ! "${python:-false}" -c 'import distributed' 2> /dev/null || break
done
if [ -z "$python" ]; then
  echo 'not run: python3-distributed'
  exit 1
fi
room=$(mktemp -d)
others=()
# A worker whose scheduler has ended does not always end at SIGTERM.
trap 'disown -a; kill -KILL "${others[@]}" 2> /dev/null || true; sleep 0.2; rm -rf "$room"' EXIT
program=$PWD/crates/fixdec_lines/out/fixdec_lines
python3 tools/built.py programs fixdec_lines
bash c/build.sh

# 1234.5 by a formatter that is kept: the least of three runs in turns. `write` is NumberFormatter::write in Rattle.
build write_times src/main.rt "$here/hosts/" std anyhow decimal_digits decimal_unsigned fixed_decimal \
  decimal_format plural_rules locale_data number_format number_skeleton
gcc -std=gnu11 -O2 bench/hosts/formats.c c/out/libfixed_decimal.a $(pkg-config --cflags --libs icu-i18n icu-uc) \
  -o "$room/formats"
for _ in 1 2 3; do
  "$room/formats"
  "$work/write_times/write_times"
done > "$room/times"
echo '|1234.5|fd_format, ns|write, ns|ratio|unumf_formatDecimal, ns|ratio|fd_format_by_skeleton, ns|'
echo '|---|---|---|---|---|---|---|'
awk -F '\t' '
  $4 == "1234.5" && (!(($1, $2, $3) in least) || $5 < least[$1, $2, $3]) {
    if ($1 == "fd_format" && !(($1, $2, $3) in least)) rows[n++] = $2 SUBSEP $3
    least[$1, $2, $3] = $5
  }
  END {
    for (row = 0; row < n; row++) {
      split(rows[row], name, SUBSEP)
      own = least["fd_format", name[1], name[2]]
      rattle = least["write", name[1], name[2]]
      icu = least["unumf_formatDecimal", name[1], name[2]]
      printf "|%s, `%s`|%d|%d|%.2f|%d|%.2f|%d|\n", name[1], name[2], own, rattle, own / rattle, icu, own / icu,
        least["fd_format_by_skeleton", name[1], name[2]]
    }
  }' "$room/times"
echo
echo '|1234.5 to 5678.5|fd_format_range, ns|unumrf_formatDecimalRange, ns|ratio|'
echo '|---|---|---|---|'
awk -F '\t' '
  $4 == "1234.5..5678.5" {
    name = $2 ", `" $3 "`"
    if ($1 == "fd_format_range" && !(name in own)) rows[n++] = name
    if ($1 == "fd_format_range" && (!(name in own) || $5 < own[name])) own[name] = $5
    if ($1 != "fd_format_range" && (!(name in icu) || $5 < icu[name])) icu[name] = $5
  }
  END { for (row = 0; row < n; row++) printf "|%s|%d|%d|%.2f|\n", rows[row], own[rows[row]], icu[rows[row]],
          own[rows[row]] / icu[rows[row]] }' "$room/times"
echo
echo '|Unit|fd_unit, ns|'
echo '|---|---|'
awk -F '\t' '
  $1 == "fd_unit" && !($3 in least) { units[n++] = $3 }
  $1 == "fd_unit" && (!($3 in least) || $5 < least[$3]) { least[$3] = $5 }
  END { for (unit = 0; unit < n; unit++) printf "|%s|%d|\n", units[unit], least[units[unit]] }' "$room/times"
echo
FIXED_DECIMAL_LIB=$PWD/c/out/libfixed_decimal.a CARGO_TARGET_DIR=$room/target \
  cargo run --quiet --release --offline --manifest-path bench/hosts/Cargo.toml

# A scan of 1,000,000 amounts, beside SQLite's own printf of them as REAL: the least processor's time of seven in turns.
gcc -shared -fPIC -O2 -Ic examples/sqlite/fixdec.c c/out/libfixed_decimal.a -o "$room/fixdec.so"
sqlite3 "$room/amounts.db" "CREATE TABLE amounts (text TEXT, number REAL, currency TEXT);
  WITH RECURSIVE n (i) AS (SELECT 0 UNION ALL SELECT i + 1 FROM n WHERE i < 999999)
  INSERT INTO amounts SELECT printf('%d.%02d', i * 7919 % 100000, i % 100), i * 7919 % 100000 + i % 100 / 100.0,
    CASE i % 3 WHEN 0 THEN 'EUR' WHEN 1 THEN 'USD' ELSE 'JPY' END FROM n;"
scans=("printf('%.2f', number)" "printf('%.2f', text)" "format_number('en', '.00', text)"
  "format_number('de', 'currency/EUR', text)" "format_number('de', 'style', 'currency', 'currency', 'EUR', text)"
  "format_number('de', 'currency/' || currency, text)" "fixdec(text, 'round:-2:half-even:1', 'format:de')")
printf '\n|SQLite, 1,000,000 rows|processor, ms|of printf|\n|---|---|---|\n'
for _ in 1 2 3 4 5 6 7; do
  for scan in "${!scans[@]}"; do
    printf '.timer on\nSELECT sum(length(%s)) FROM amounts;\n' "${scans[scan]}" |
      sqlite3 -cmd ".load $room/fixdec" "$room/amounts.db" |
      awk -v scan="$scan" '/^Run Time/ { print scan, ($6 + $8) * 1000 }'
  done
done > "$room/times"
for scan in "${!scans[@]}"; do
  awk -v scan="$scan" -v name="${scans[scan]}" '
    !($1 in least) || $2 < least[$1] { least[$1] = $2 }
    END { printf "|`%s`|%d|%.2f|\n", name, least[scan], least[scan] / least[0] }' "$room/times"
done

"$python" -m pip install --no-index --quiet --target "$room/python" ./python
PYTHONPATH=$room/python "$python" python/tests/bench.py "$program"
printf '\n|Column|lines a second|\n|---|---|\n'
awk -v lines="$lines" 'BEGIN { for (i = 0; i < lines; i++) printf "%d.%03d\n", i % 10000, i * 7 % 1000 }' \
  > "$room/lines"

# report NAME COMMAND..: the lines a second of a command that converts $room/lines to $room/found, as the program does.
report() {
  local name=$1 start=$EPOCHREALTIME
  shift
  "$@"
  awk -v name="$name" -v lines="$lines" -v start="$start" -v end="$EPOCHREALTIME" \
    'BEGIN { printf "|%s|%d|\n", name, lines / (end - start) }'
  [ ! -e "$room/expected" ] || cmp "$room/found" "$room/expected"
}
one() { "$program" round:-2:half-even:1 < "$room/lines" > "$room/found"; }
report fixdec_lines one
mv "$room/found" "$room/expected"
port=$((20000 + $$ % 20000))
"$python" -m distributed.cli.dask_scheduler --host 127.0.0.1 --port $port --no-dashboard > "$room/log" 2>&1 &
others+=($!)
dask() {
  "$python" examples/dask/convert.py --program "$program" --scheduler "tcp://127.0.0.1:$port" --block 4000000 \
    "$room/lines" -- round:-2:half-even:1 > "$room/found"
}
map() {
  "$python" - "tcp://127.0.0.1:$port" "$room" <<'PY'
import sys
from dask import bag
from dask.distributed import Client

def rounded(line):
    from decimal import ROUND_HALF_EVEN, Decimal
    return str(Decimal(line.strip()).quantize(Decimal("0.01"), ROUND_HALF_EVEN)) + "\n"

with Client(sys.argv[1]) as client, open(sys.argv[2] + "/found", "w") as file:
    parts = bag.read_text(sys.argv[2] + "/lines", blocksize=4_000_000).map(rounded).to_delayed()
    for part in client.compute(parts):
        file.writelines(part.result())
PY
}
workers=0
for wanted in 1 2 4; do
  while [ $workers -lt $wanted ]; do
    "$python" -m distributed.cli.dask_worker "tcp://127.0.0.1:$port" --nthreads 1 --no-nanny --no-dashboard \
      --local-directory "$room/work" > "$room/log" 2>&1 &
    others+=($!)
    workers=$((workers + 1))
  done
  sleep 5
  report "Dask, $wanted workers" dask
done
# The map takes a hundred times as long: a tenth of the lines.
lines=$((lines / 10))
for file in lines expected; do
  head -n "$lines" "$room/$file" > "$room/first"
  mv "$room/first" "$room/$file"
done
report "a Dask map of decimal.Decimal, 4 workers" map
