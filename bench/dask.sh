#!/usr/bin/env bash
# Times examples/dask/convert.py with --out on one, two and four workers of Dask. Prints the seconds from the start of
# the first block to the end of the last part, and their ratio to the seconds of one worker:
#
#   bench/dask.sh [LINES] [FOLDER]
#
# LINES is a multiple of 1000000, by default 100000000. A new folder in FOLDER, by default TMPDIR or /tmp, holds the
# lines and the parts of one run: 1.7 GB for 100,000,000 lines. It needs as much free memory, so that no run waits for
# the disk. The output of each run is compared with that of one program. It proves what the gate has not built of the
# same sources. It needs python3-distributed and four idle processors.
set -euo pipefail
lines=${1:-100000000}
if [[ ! $lines =~ ^[0-9]{1,12}$ ]] || [ $((10#$lines % 1000000)) != 0 ] || [ $((10#$lines)) = 0 ] || [ $# -gt 2 ]; then
  echo "usage: bench/dask.sh [LINES] [FOLDER], LINES a multiple of 1000000" >&2
  exit 2
fi
millions=$((10#$lines / 1000000))
above=$(realpath -- "${2:-${TMPDIR:-/tmp}}")
unset CDPATH
cd -- "$(dirname -- "$0")/.."
for python in python3 /usr/bin/python3 ''; do
  ! "${python:-false}" -c 'import distributed' 2> /dev/null || break
done
if [ -z "$python" ]; then
  echo 'not run: python3-distributed'
  exit 1
fi
room=$(mktemp -d -p "$above")
others=()
# A worker whose scheduler has ended does not always end at SIGTERM.
trap 'disown -a; kill -KILL "${others[@]}" 2> /dev/null || true; sleep 0.2; rm -rf "$room"' EXIT
free=$(df --output=avail -B 1000000 "$room" | tail -n 1)
if [ "$free" -lt $((millions * 17 + 100)) ]; then
  echo "$above has $free MB, and $lines lines and their parts need $((millions * 17 + 100))"
  exit 1
fi
program=$PWD/crates/fixdec_lines/out/fixdec_lines
python3 tools/built.py programs fixdec_lines

# Decimals with three fraction digits.
"$python" - $millions > "$room/lines" <<'PY'
import sys
lines = "".join(f"{i * 7919 % 10000}.{i % 1000:03}\n" for i in range(1_000_000)).encode()
for _ in range(int(sys.argv[1])):
    sys.stdout.buffer.write(lines)
PY
expected=$("$program" round:-2:half-even:1 < "$room/lines" | sha256sum)
# The first block that starts makes a folder. The program runs once before it, for the header, when there are no parts.
printf '#!/bin/sh\n[ -d %q ] || [ ! -d %q ] || mkdir %q 2> /dev/null\nexec %q "$@"\n' \
  "$room/start" "$room/parts" "$room/start" "$program" > "$room/program"
chmod +x "$room/program"

port=$((20000 + $$ % 20000))
"$python" -m distributed.cli.dask_scheduler --host 127.0.0.1 --port $port --no-dashboard > "$room/log" 2>&1 &
others+=($!)
# start_worker: starts a worker, which is one process with one thread.
start_worker() {
  "$python" -m distributed.cli.dask_worker "tcp://127.0.0.1:$port" --nthreads 1 --no-nanny --no-dashboard \
    --local-directory "$room/work" > "$room/log" 2>&1 &
  others+=($!)
}
# time_of FILE: when it was last changed, in seconds.
time_of() { stat -c %.9Y "$1"; }

printf '|Workers|seconds|of one|\n|---|---|---|\n'
workers=0 one=
for wanted in 1 2 4; do
  while [ $workers -lt $wanted ]; do
    start_worker
    workers=$((workers + 1))
  done
  "$python" -c "from distributed import Client; Client('tcp://127.0.0.1:$port').wait_for_workers($wanted, 60)"
  rm -rf "$room/parts" "$room/start"
  "$python" examples/dask/convert.py --program "$room/program" --scheduler "tcp://127.0.0.1:$port" --out "$room/parts" \
    "$room/lines" -- round:-2:half-even:1
  started=$(time_of "$room/start")
  ended=$(for part in "$room"/parts/part-*; do time_of "$part"; done | sort -n | tail -n 1)
  seconds=$(awk "BEGIN { printf \"%.2f\", $ended - $started }")
  one=${one:-$seconds}
  awk "BEGIN { printf \"|%d|%.2f|%.2f|\\n\", $wanted, $seconds, $seconds / $one }"
  if [ "$(cat "$room"/parts/part-* | sha256sum)" != "$expected" ]; then
    echo 'the bytes are not those of one program'
    exit 1
  fi
done
