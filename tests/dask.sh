#!/usr/bin/env bash
# Tries examples/dask/convert.py: over a stand-in for Dask, which runs blocks in threads, and over Dask itself, with a
# worker that ends midway. Without python3-distributed the latter is a line `not run: ..`, and a failure under ALL=1.
# With BUILT_BY_GATE set nothing is proved. The last line is `N passed, M failed`; the status is 0 if M is 0.
set -u
unset CDPATH
cd -- "$(dirname -- "$0")/.." || exit 1
. tests/programs.sh
copy_programs fixdec_lines
program=$room/fixdec_lines
top=$PWD
convert=$PWD/examples/dask/convert.py
modules=$PWD/tests/stand_ins
cd "$room" || exit 1

# ---- Files
seq -f '%.3f' 1 0.125 5000 > numbers
{ echo name,price,note; sed 's/.*/"a,b",&,"x"/' numbers; } > table.csv
{ echo name,price,note; printf 'c,1.005,\nd,7,'; } > short.csv
{ echo name,cost; echo a,1; } > other.csv
sed '20000s/.*/seven/' numbers > wrong
printf '1.005\n2.5' > end
: > empty
head -n 1 short.csv | tr -d '\n' > bare.csv
mkfifo pipe
mark=$'\xef\xbb\xbf' separator=$'\xe2\x80\xa8'
# Lines that begin with a byte order mark, one of them after another, and one that fails.
{ echo "${mark}1"; seq 2 5; printf '%s\n' "${mark}6" "${mark}7" 8 '' "9 $mark" x10 "${mark}11"; seq 12 20; } > marks
# Such lines after a header.
printf '%s\n' a "${mark}1" 2 "${mark}3" 4 > marks.csv
{ printf 'a,p%sq\r\n' "$separator"; printf '1,%s\n' 1 x "y$separator" '"2"' '3' '"4'; } > separators.csv
# Programs that are killed, or out of memory, in the block with this line.
for how in killed killed_once memory; do
  case $how in
    killed) ending="kill -9 \$\$" ;;
    killed_once) ending="mkdir '$room/was_killed' 2> /dev/null && kill -9 \$\$" ;;
    memory) ending="echo 'line 7: memory' >&2; exit 3" ;;
  esac
  cat > $how << END
#!/usr/bin/env bash
cat > "\$0.\$\$"
if grep -qx 2000.000 "\$0.\$\$"; then $ending; fi
"$program" "\$@" < "\$0.\$\$"
status=\$?
rm -f "\$0.\$\$"
exit \$status
END
  chmod +x $how
done
# Programs that append to a file, remove it, or wait, before they convert anything.
for how in 'appends echo 1 >>' 'removes rm -f' 'waits touch started; sleep 3; :' 'removes_parts rm -rf parts' \
  'leaves [ ! -d parts ] || touch parts/.part-00000.left'; do
  printf '#!/usr/bin/env bash\n%s changing\nexec "%s" "$@"\n' "${how#* }" "$program" > "${how%% *}"
  chmod +x "${how%% *}"
done
# The first line of that block, of 20,000 bytes: the line before begins in the block before.
start=$(($(grep -bx 2000.000 numbers | cut -d: -f1) / 20000 * 20000))
first=$(($(head -c $((start - 1)) numbers | wc -l) + 2))

# run WORD..: convert.py, by the Python and the modules that are tried.
run() {
  PYTHONPATH=$modules timeout 300 "$python" "$convert" "$@"
}

# parts NAME STATUS COUNT WORD..: with `--out parts` nothing is written but parts, which are together the file
# `expected`, and the file `lines` on standard error. COUNT is the number of parts, or `some`.
parts() {
  rm -rf parts
  run --out parts "${@:4}" > found 2> log
  [ $? = "$2" ] && [ ! -s found ] && cmp -s log lines && cat parts/part-* 2> /dev/null | cmp -s - expected &&
    ! ls -A parts 2> /dev/null | grep -qvx 'part-[0-9]\{5\}' && { [ "$3" = some ] || [ "$(ls parts | wc -l)" = "$3" ]; }
  judge $? "$dask, $1, in parts: $(ls -A parts 2> /dev/null | wc -l) files, $(tail -n 1 log)"
}

# row NAME BLOCK FILE.. -- WORD..: the bytes and the status of fixdec_lines for each file; of a header only the first.
# Over the stand-in the same in parts.
row() {
  local name=$1 block=$2 files=() skipped=0 status=0 found
  shift 2
  while [ "$1" != -- ]; do files+=("$room/$1"); shift; done
  shift
  : > expected; : > lines
  for file in "${files[@]}"; do
    "$program" "$@" < "$file" 2> log | tail -n +$((skipped + 1)) >> expected
    found=${PIPESTATUS[0]}
    [ "$found" -le $status ] || status=$found
    # A wrong word is reported once, without a file.
    if [ $status = 2 ]; then cp log lines; else LC_ALL=C sed "s|^|$file: |" log >> lines; fi
    [[ " $* " != *' header '* ]] || [ ! -s "$file" ] || skipped=1
  done
  run --program "$program" --block "$block" "${files[@]}" -- "$@" > found 2> log
  ended=$?
  [ $ended = "$status" ] && cmp -s found expected && cmp -s log lines
  judge $? "$dask, $name: status $ended, $(tail -n 1 log)"
  [ "$dask" = Dask ] || parts "$name" "$status" some --program "$program" --block "$block" "${files[@]}" -- "$@"
}

# fails STATUS LINE WORD..: convert.py writes this one line on standard error and has this status.
fails() {
  run "${@:3}" > found 2> log
  [ $? = "$1" ] && [ "$(cat log)" = "$2" ] && [ "$(wc -l < log)" = 1 ]
  judge $? "$dask, $2: $(tail -n 1 log)"
}

# ends NAME PROGRAM ERRORS WORD..: a block that the program does not convert ends the run, after all blocks before it.
ends() {
  "$program" "${@:4}" < numbers | head -n $((first - 1)) > expected
  run --program "$room/$2" --block 20000 numbers -- "${@:4}" > found 2> log
  [ $? = 3 ] && cmp -s found expected && printf '%s\n' "$3" | tee lines | cmp -s - log
  judge $? "$dask, $1: $(tail -n 1 log)"
  parts "$1" 3 $((start / 20000)) --program "$room/$2" --block 20000 numbers -- "${@:4}"
}

rows() {
  local half_even=round:-2:half-even:1
  row 'blocks that begin inside a line' 1001 numbers -- $half_even
  row 'two files, an empty one, and a last line without a line feed' 70000 numbers empty end -- $half_even
  row 'a header and a field in CSV' 100000 table.csv short.csv -- header csv field:2 $half_even
  row 'a header alone without a line feed' 100000 short.csv bare.csv -- header csv field:2 $half_even
  row 'a file twice' 100000 short.csv empty short.csv -- header csv field:price $half_even
  row 'a line that fails in the third block' 50000 wrong -- $half_even
  row 'lines that fail and are skipped' 50000 wrong end -- skip $half_even
  row 'lines that fail and are copied' 9 marks end -- keep $half_even
  row 'a wrong word' 50000 numbers -- rounded
  row 'a header without the field' 50000 table.csv -- header csv field:cost $half_even
  for block in 4 7 1000000; do
    row "lines with a byte order mark, blocks of $block" $block marks -- skip trim shift:1
  done
  for block in 1 3 1000000; do
    row "lines with a byte order mark after a header, blocks of $block" $block marks.csv -- header skip trim shift:1
  done
  row 'a line separator of Unicode' 9 separators.csv -- skip header csv "field:p$separator"q shift:1
  row 'a line separator of Unicode in a field' 9 separators.csv -- skip header csv field:1 shift:1 field:2

  local line="$room/numbers: the block from line $first on"
  ends 'a killed block' killed "$line: $room/killed: killed by signal 9" $half_even
  ends 'a killed block, with skip' killed "$line: $room/killed: killed by signal 9" skip $half_even
  ends 'a block without memory, with skip' memory \
    "$room/numbers: line $((first + 6)): memory"$'\n'"$line: $room/memory: ended with status 3" skip $half_even
  rm -rf was_killed
  "$program" $half_even < numbers > expected
  run --program "$room/killed_once" --block 20000 numbers -- $half_even > found 2> log && [ -d was_killed ] &&
    cmp -s found expected
  judge $? "$dask, a block that is killed once: $(tail -n 1 log)"

  in_parts

  fails 3 "$room/nothing: No such file or directory" --program ./fixdec_lines numbers nothing -- $half_even
  fails 3 "$room: Is a directory" --program ./fixdec_lines "$room" -- $half_even
  fails 3 "$room/pipe: not a regular file" --program ./fixdec_lines numbers pipe -- $half_even
  fails 3 './nothing: No such file or directory' --program ./nothing numbers -- $half_even
  fails 3 './numbers: Permission denied' --program ./numbers numbers -- $half_even
  line="$room/changing: the block from line 1 on"
  cp numbers changing
  fails 3 "$line: the file has changed" --program ./appends changing -- $half_even
  fails 3 "$line: No such file or directory" --program ./removes changing -- $half_even
  fails 1 "$room/other.csv: another header" --program ./fixdec_lines table.csv other.csv -- header csv field:2
  fails 2 'convert.py: records: a block ends at a line feed' numbers -- csv records field:1
  fails 2 'convert.py: the following arguments are required: FILE' -- $half_even
  for size in 0 -5 1.5 many ''; do
    fails 2 "convert.py: argument --block: not a number of bytes above 0: $size" --block "$size" numbers -- $half_even
  done
  run --program ./fixdec_lines numbers -- $half_even > /dev/full 2> log
  [ $? = 3 ] && [ "$(cat log)" = 'output: No space left on device' ]
  judge $? "$dask, a full output: $(tail -n 1 log)"
  run --program ./fixdec_lines --block 20000 numbers -- $half_even 2> log | head -n 1 > found
  [ "${PIPESTATUS[0]}" = 3 ] && [ "$(cat log)" = 'output: Broken pipe' ] && [ "$(cat found)" = 1.00 ]
  judge $? "$dask, a closed pipe: $(tail -n 1 log)"
  run --help > /dev/full 2> log
  [ $? = 3 ] && [ "$(cat log)" = 'output: No space left on device' ]
  judge $? "$dask, help to a full output: $(tail -n 1 log)"
  rm -f started
  PYTHONPATH=$modules env --default-signal=INT "$python" "$convert" --program ./waits numbers -- $half_even \
    > found 2> log &
  for _ in $(seq 300); do [ -e started ] && break; sleep 0.1; done
  kill -INT $!
  wait $!
  [ $? = 130 ] && [ ! -s log ]
  judge $? "$dask, an interrupt: $(tail -n 1 log)"
  run --program ./fixdec_lines numbers -- $half_even 2> log >&-
  [ $? = 3 ] && [ "$(cat log)" = 'output: standard output is closed' ]
  judge $? "$dask, a closed output: $(tail -n 1 log)"
}

# in_parts: how many parts there are, which folders are refused, and what ends a run that has written parts.
in_parts() {
  local half_even=round:-2:half-even:1 size folder
  : > lines
  size=$(tail -n +2 table.csv | wc -c)
  "$program" header csv field:2 shift:1 < table.csv > expected
  parts 'a header' 0 $((size / 30000 + 1)) --program "$program" --block 30000 table.csv -- header csv field:2 shift:1
  [ "$(grep -l ^name, parts/*)" = parts/part-00000 ]
  judge $? "$dask: the header is in the first part: $(grep -l ^name, parts/*)"
  head -n 1 numbers > expected
  echo "$room/numbers: the block from line 2 on: $room/killed: killed by signal 9" > lines
  parts 'a first block that is killed' 3 1 --program "$room/killed" numbers -- header $half_even
  : > expected
  : > lines
  parts 'an empty file' 0 1 --program "$program" empty -- $half_even
  "$program" $half_even < wrong > expected 2> lines
  sed -i "s|^|$room/wrong: |" lines
  size=$(head -n 19999 wrong | wc -c)
  parts 'parts after a block that fails' 1 $((size / 3000 + 1)) --program "$program" --block 3000 wrong -- $half_even

  mkdir -p full && touch full/file
  for folder in full numbers ''; do
    fails 2 "convert.py: argument --out: not an empty folder: $folder" \
      --out "$folder" --program ./fixdec_lines numbers -- trim
  done
  fails 3 "$room/numbers/parts: Not a directory" --out numbers/parts --program ./fixdec_lines numbers -- trim
  mkdir -p empty_folder
  run --out empty_folder --program ./fixdec_lines numbers -- trim >&- 2> log && [ ! -s log ] &&
    "$program" trim < numbers | cmp -s - empty_folder/part-00000
  judge $? "$dask, a folder that is there, and a closed output: $(tail -n 1 log)"
  rm -rf parts empty_folder
  run --out parts --program ./removes_parts numbers -- trim > found 2> log
  [ $? = 3 ] && [ "$(head -n 1 log)" = \
    "$room/numbers: the block from line 1 on: $room/parts/part-00000: No such file or directory" ]
  judge $? "$dask, a folder that is removed: $(head -n 1 log)"
  # What a worker leaves that ends while it writes.
  "$program" trim < numbers > expected
  : > lines
  parts 'a part that is not whole' 0 1 --program ./leaves numbers -- trim
}

python=python3 dask="a stand-in for Dask"
rows
# Each block runs twice.
cp -r "$modules" twice &&
  sed -i 's/return self.threads.submit(function, \*arguments)/self.threads.submit(function, *arguments); &/' \
    twice/dask/distributed.py
./fixdec_lines shift:1 < numbers > expected
modules=$room/twice parts 'each block twice' 0 some --program ./fixdec_lines --block 3000 numbers -- shift:1
# More digits.
found=$(PYTHONPATH=$modules:${convert%/*} "$python" -B -c 'from convert import Parts
print(*(Parts("parts", count).path(7) for count in (1, 100000, 100001)))')
[ "$found" = 'parts/part-00007 parts/part-00007 parts/part-000007' ]
judge $? "the names of parts: $found"
# A client that is never closed.
cp -r "$modules" never && sed -i 's/self.threads.shutdown.*/__import__("time").sleep(1000)/' never/dask/distributed.py
./fixdec_lines shift:1 < numbers > expected
modules=$room/never run --program ./fixdec_lines numbers -- shift:1 > found 2> log &&
  cmp -s found expected && [ ! -s log ]
judge $? "$dask, which does not close: $(tail -n 1 log)"

# ---- Dask
modules='' dask=Dask
for python in python3 /usr/bin/python3 ''; do
  ! "${python:-false}" -c 'import distributed' 2> /dev/null || break
done
if [ -n "$python" ]; then
  rows
  run --scheduler x://y --program ./fixdec_lines numbers -- shift:1 > found 2> log
  [ $? = 3 ] && [[ $(cat log) == 'convert.py: x://y: '* ]] && [ "$(wc -l < log)" = 1 ]
  judge $? "Dask, an address that is none: $(tail -n 1 log)"

  # Runs at once on this machine write nothing on standard error.
  ./fixdec_lines shift:1 < numbers > expected
  for number in 1 2; do
    run --program ./fixdec_lines numbers -- shift:1 > found.$number 2> log.$number &
    others[number]=$!
  done
  wait "${others[1]}" && wait "${others[2]}" &&
    cmp -s found.1 expected && cmp -s found.2 expected && [ ! -s log.1 ] && [ ! -s log.2 ]
  judge $? "Dask, two runs at once: $(tail -n 1 log.1 log.2)"

  # Four workers on loopback, of which one ends midway.
  port=$((20000 + $$ % 20000))
  for _ in 1 2 3 4 5 6 7 8; do cat numbers; done > many
  "$python" -m distributed.cli.dask_scheduler --host 127.0.0.1 --port $port --no-dashboard > scheduler 2>&1 &
  others=($!)
  for _ in 1 2 3 4; do
    "$python" -m distributed.cli.dask_worker "tcp://127.0.0.1:$port" --nthreads 1 --no-nanny --no-dashboard \
      --local-directory "$room/work" > worker 2>&1 &
    others+=($!)
  done
  ./fixdec_lines round:-2:half-even:1 < many > expected
  # ends_midway FILE WORD..: the last worker ends when this file has bytes, and all lines are converted all the same.
  ends_midway() {
    run --program "$program" --scheduler "tcp://127.0.0.1:$port" --block 20000 "${@:2}" many -- round:-2:half-even:1 \
      > found 2> log &
    converted=$!
    for _ in $(seq 1000); do [ -s "$1" ] && break; sleep 0.01; done
    disown "${others[-1]}"
    kill -9 "${others[-1]}"
    unset 'others[-1]'
    wait $converted
  }
  rm -f found
  ends_midway found && cmp -s found expected
  judge $? "Dask, a worker that ends: $(tail -n 1 log)"
  rm -rf parts
  ends_midway parts/part-00003 --out parts && [ ! -s found ] && [ ! -s log ] && cat parts/* | cmp -s - expected &&
    [ "$(ls -A parts)" = "$(seq -f 'part-%05g' 0 $(($(wc -c < many) / 20000)))" ]
  judge $? "Dask, a worker that ends, in parts: $(tail -n 1 log)"
  disown "${others[@]}"
  kill -9 "${others[@]}" 2> /dev/null
else
  missing 'python3-distributed'
fi

# ---- Data frames: the example of README.md, over the Python module.
for python in python3 /usr/bin/python3 ''; do
  ! "${python:-false}" -c 'import dask.dataframe, pandas' 2> /dev/null || break
done
if [ -z "$python" ]; then
  missing 'python3-dask and python3-pandas'
elif "$python" -m pip --version > /dev/null 2>&1 &&
  [ -e "$("$python" -c 'import sysconfig; print(sysconfig.get_path("include"))')/Python.h" ]; then
  (cd "$top" && bash c/build.sh && "$python" -m pip install --no-index --quiet --target "$room/module" ./python) \
    > log 2>&1
  judge $? "the Python module: $(tail -n 3 log)"
  printf 'name,price\ntea,1234.5\nmilk,7\n' > prices-1.csv
  printf 'name,price\nbread,-2.345\n' > prices-2.csv
  sed -n '/^```python$/,/^```$/p' "$top/examples/dask/README.md" | sed '/^```/d' > frame.py
  # CLDR's pattern of an amount in German has a no-break space before the symbol.
  printf '%s\n' name,price,shown $'tea,1234.5,"1.234,50\xc2\xa0€"' $'milk,7,"7,00\xc2\xa0€"' \
    $'bread,-2.345,"-2,34\xc2\xa0€"' > expected
  PYTHONPATH=$room/module "$python" frame.py > found 2> log && cmp -s found expected
  judge $? "a data frame: $(tail -n 1 log), $(tail -n 1 found)"
else
  missing 'python3-dev and python3-pip for data frames'
fi
finish
