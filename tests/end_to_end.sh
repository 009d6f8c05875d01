#!/usr/bin/env bash
# Runs the built programs `fixdec`, `fixdec_lines` and `plural`, and compares standard output, standard error and the
# status: a row for each line of an error, and words and inputs that only a real command line has; `cli_vectors` has all
# others. tools/built.py proves and builds them first, but where the gate just did. Needs bash, and prlimit of
# util-linux. The last line is `N passed, M failed`; the status is 0 if M is 0.
set -u
unset CDPATH
cd -- "$(dirname -- "$0")/.." || exit 1
. tests/programs.sh
copy_programs fixdec fixdec_lines plural

# compare STATUS TEXT LINES: the result of a program, in $found, $room/out and $room/err, is this.
compare() {
  printf '%s' "$2" > "$room/text"
  printf '%s' "$3" > "$room/lines"
  [ "$found" = "$1" ] && cmp -s "$room/out" "$room/text" && cmp -s "$room/err" "$room/lines"
  judge $? "$name: status $found, $(head -c 200 "$room/out" | tr '\n' '|'), $(head -c 200 "$room/err" | tr '\n' '|')"
}

# row PROGRAM STATUS TEXT LINES WORD..: the result of the words is this.
row() {
  name="${*:1:1} ${*:5:8}"
  "$room/$1" "${@:5}" > "$room/out" 2> "$room/err" < /dev/null
  found=$?
  compare "$2" "$3" "$4"
}

# lines STATUS INPUT TEXT LINES WORD..: the result of `fixdec_lines` on the input, in which printf reads escapes, and
# the words is this.
lines() {
  name="printf '${2:0:40}' | fixdec_lines ${*:5:8}"
  printf '%b' "$2" > "$room/in"
  "$room/fixdec_lines" "${@:5}" > "$room/out" 2> "$room/err" < "$room/in"
  found=$?
  compare "$1" "$3" "$4"
}

# shell STATUS TEXT LINES COMMAND: the result of a command of the shell is this.
shell() {
  name=$4
  (PATH=$room:$PATH && eval "$4") > "$room/out" 2> "$room/err" < /dev/null
  found=$?
  compare "$1" "$2" "$3"
}

# help PROGRAM LINE: the only words `--help` and `-h` print the usage line, a table, and last the line of the version.
version='0.7.3+4 (CLDR 48)'
help() {
  for word in --help -h; do
    "$room/$1" "$word" > "$room/out" 2> "$room/err" < /dev/null \
      && [ "$(head -n 1 "$room/out")" = "$2" ] && [ "$(tail -n 1 "$room/out")" = "$1 $version" ] \
      && [ "$(wc -l < "$room/out")" -gt 20 ] && [ ! -s "$room/err" ]
    judge $? "$1 $word"
  done
}

# little_memory REPORT LIMITS STATUS TEXT LINES PROGRAM WORD..: within limits of memory, in KiB, the system cannot start
# the program; or it reports `memory` after a part of the text, or `line 2: memory` after its first line; or its result
# is this. REPORT and the result occur.
: > "$room/in"
little_memory() {
  local limit report part reported=0 printed=0
  for limit in $2; do
    name="$6 within $limit KiB"
    prlimit --as=$((limit * 1024)) "$room/$6" "${@:7}" > "$room/out" 2> "$room/err" < "$room/in"
    found=$?
    report=$(cat "$room/err")
    [ "$found $report" != "3 $1" ] || reported=$((reported + 1))
    if [ "$found $report" = '3 line 2: memory' ]; then
      compare 3 "${4%%$'\n'*}"$'\n' "$report"$'\n'
    elif [ "$found" = 3 ]; then
      part=$(wc -c < "$room/out")
      compare 3 "${4:0:$((part < ${#4} ? part : 0))}" $'memory\n'
    elif [ "$found" = "$3" ]; then
      printed=$((printed + 1))
      compare "$3" "$4" "$5"
    fi
  done 2> /dev/null
  [ "$reported" != 0 ] && [ "$printed" != 0 ]
  judge $? "$6 with little memory reported $1 $reported times, and ended as ever $printed times"
}

# ---- fixdec

usage=$'usage: fixdec TEXT [CALL]..\n'

# Status 0.
row fixdec 0 $'2.50\n' '' 250 shift:-2
row fixdec 0 $'1.234,50\xc2\xa0€\n' '' 1234.5 'format:de:currency/EUR .00'

# Status 1: the text or a call fails.
row fixdec 1 '' $'start: syntax\n' ''
row fixdec 1 '' $'start: limit\n' "$(printf '%032769d' 0)"
row fixdec 1 '' $'start: limit\n' "$(printf '%032769d' 0)%" read:en:%
row fixdec 1 '' $'call 0: syntax\n' 5 concat:x
row fixdec 1 '' $'call 1: limit\n' 5 trim-start concat:1e99999
row fixdec 1 '' $'call 0: overlap\n' 120 concat:25
row fixdec 1 '' $'call 1: overflow\n' 98765 shift:32763 shift:1
row fixdec 1 '' $'format: overflow\n' 9.5e32767 'format:en:@'

# A range: its text, and an error of its end.
row fixdec 0 $'3,00–5,00\xc2\xa0€\n' '' 3 to:5 format:de:currency/EUR
row fixdec 0 $'3–5\n' '' 3 to:5 format:de
row fixdec 1 '' $'end: syntax\n' 3 to:x format:de
row fixdec 1 '' $'end: limit\n' 3 "to:$(printf '%032769d' 0)" format:de
row fixdec 1 '' $'end: call 0: overlap\n' 1200 to:120 concat:25 format:de
row fixdec 1 '' $'end: call 1: overflow\n' 1 to:98765 shift:32763 shift:1 format:de
row fixdec 2 '' "$usage" 3 to:5

# Status 2: the first wrong word decides.
row fixdec 2 '' "$usage"
row fixdec 2 '' "$usage" 5 round:0:up:1
row fixdec 2 '' "$usage" $'5\xff'
row fixdec 2 '' "$usage" 5 $'concat:\xc3\x28'
row fixdec 2 '' $'unknown locale: tlh\n' 5 read:tlh foo
row fixdec 2 '' $'skeleton: syntax at 0\n' 5 format:de:fast
row fixdec 2 '' $'skeleton: unsupported scale\n' 5 'format:tlh:.00 scale/2'
row fixdec 2 '' $'skeleton: no reader\n' 5 read:vec:K foo

# Status 3: standard output fails. If standard error cannot be written, the status is the same.
shell 3 '' $'output\n' 'fixdec 250 > /dev/full'
shell 3 '' $'output\n' 'fixdec 250 >&-'
shell 3 '' $'output\n' 'fixdec --help > /dev/full'
shell 1 '' '' 'fixdec 5. 2> /dev/full'
shell 0 $'250\n' '' 'fixdec 250 2> /dev/full'

# Many words, and a long text.
calls=()
for ((i = 0; i < 300; i++)); do calls+=(shift:0); done
row fixdec 0 $'50\n' '' 5 "${calls[@]}" shift:1
row fixdec 1 '' $'call 300: syntax\n' 5 "${calls[@]}" concat:x
row fixdec 2 '' "$usage" 5 "${calls[@]}" x
zeros=$(printf '%032768d' 0)
row fixdec 0 "1${zeros:1}.$zeros"$'\n' '' 1e32767 pad-end:-32768

# Little memory for 50000 words.
many=()
for ((i = 0; i < 50000; i++)); do many+=(shift:0); done
little_memory memory "$(seq 4000 4000 64000)" 0 $'5\n' '' fixdec 5 "${many[@]}"

help fixdec 'usage: fixdec TEXT [CALL]..'
row fixdec 1 '' $'start: syntax\n' --help shift:1
row fixdec 2 '' "$usage" --help 5
row fixdec 1 '' $'start: syntax\n' --version

# ---- fixdec_lines

# Status 0.
lines 0 '250\n7\n' $'2.50\n0.07\n' '' shift:-2
lines 0 '1.234,565\n-7\n' $'€1,234.56\n-€7.00\n' '' read:de round:-2:half-even:1 format:en:currency/EUR
lines 0 '\ufeffname,price\r\n"a\nb", 250 \r\n' $'\ufeffname,price\r\n"a\nb", 2.50 \r\n' '' \
  trim records header csv field:price shift:-2
lines 0 '\ufeffprice,name\r\n250,tea\r\n' $'\ufeffprice,name\r\n2.50,tea\r\n' '' header csv field:price shift:-2
lines 0 '\ufeff"name","price"\r\ntea,250\r\n' $'\ufeff"name","price"\r\ntea,2.50\r\n' '' \
  header csv field:price shift:-2

# Status 1: the first line that fails ends the run, or lines that fail are skipped or kept.
lines 1 '1\nx\n2\n' $'1\n' $'line 2: start: syntax\n'
lines 1 '0.0\n10\n110.00\n11\n120\n' $'7\n17\n117\n' $'line 4: call 1: overlap\n' trim-end concat:7
skipped=$'line 2: start: syntax\nline 3: start: limit\nline 4: call 0: overflow\n'
lines 1 '250\n7\r\n10e32767\n1e-32767\n4' $'2.50\n\n\n\n0.04\n' "$skipped" skip shift:-2
lines 1 '7\n9e32767\n8\n' $'70\n9e32767\n80\n' $'line 2: format: overflow\n' keep format:en:scale/10
lines 1 '1\t2\n3\n' $'1\t20\n' $'line 2: field\n' field:2 shift:1
lines 1 '1,"2\n' '' $'line 1: quote\n' csv field:1
lines 1 '1,x\ny,2\n' '' $'line 1: field 2: start: syntax\n' csv field:1 field:2
lines 1 'a,b\n1,x\n' $'a,b\n' $'line 2: b: start: syntax\n' header csv field:b
lines 1 'a\n1,2\n' '' $'line 1: no field b\n' header csv field:b
lines 1 'a,b,a\n1,2,3\n' '' $'line 1: two fields a\n' header csv field:b field:a
lines 1 'a,b\n1,2\n' '' $'line 1: two words for field 2\n' header csv field:b field:2

# Status 2: the first wrong word is named.
# wrong TEXT WORD..: fixdec_lines reports this of the words.
wrong() {
  lines 2 '1\n' '' "fixdec_lines: $1"$'\n' "${@:2}"
}
wrong 'no such word: trimm (--help lists all)' trimm
wrong 'no such word: to:5 (--help lists all)' to:5 format:de
wrong 'no such word:  (--help lists all)' ''
wrong 'format:de is not in its place (--help lists all)' format:de trim-end
wrong 'field:2 stands after a call' trim-end field:2
wrong 'a word is not UTF-8' $'concat:\xc3\x28'
wrong 'csv and delimiter:C need field:N' delimiter:,
wrong 'field:NAME needs header' csv field:price
wrong 'records needs csv' records field:2 up
wrong 'a quote is no delimiter of csv' csv field:1 'delimiter:"'
lines 2 '1\n' '' $'unknown locale: tlh\n' read:tlh trimm
lines 2 '1\n' '' $'skeleton: syntax at 0\n' read:de format:de:fast
lines 2 '1\n' '' $'skeleton: unsupported usage\n' 'format:de:percent usage/road'
lines 2 '1\n' '' $'skeleton: no reader\n' read:vec:K format:tlh

# Many fields, by number and by name, and a long name.
mapfile -t words < <(for n in $(seq 200 -1 1); do printf 'field:%d\nshift:%d\n' "$n" $((n % 3)); done)
many=$(seq 200 | awk '{ print $1 substr("00", 1, $1 % 3) }' | paste -sd,)
lines 0 "$(seq -s, 200)\n" "$many"$'\n' '' csv "${words[@]}"
names=$(seq -f f%g -s, 200)
lines 0 "$names\n$(seq -s, 200)\n" "$names"$'\n'"$many"$'\n' '' header csv "${words[@]/field:/field:f}"
long=$(printf '%065536d' 0)x
lines 0 "a,$long\n1,2\n" "a,$long"$'\n1,20\n' '' header csv "field:$long" shift:1
lines 1 'a\n' '' "line 1: no field $(printf '%040d' 0)"$'\n' header csv "field:$long"

# stack KIB COUNT PREFIX OPTION..: in a stack of this many KiB, the input of a row of COUNT fields, after a header of
# their names if the prefix is not empty, is converted field by field, and each word names one field.
stack() {
  name="$2 fields $3N in a stack of $1 KiB"
  { [ -z "$3" ] || seq -s, -f "$3%.0f" "$2"; seq -s, "$2"; } > "$room/in"
  mapfile -t words < <(seq -f "field:$3%.0f" "$2")
  (ulimit -s "$1" && exec env -i "$room/fixdec_lines" "${@:4}" "${words[@]}") > "$room/out" 2> "$room/err" < "$room/in"
  found=$?
  compare 0 "$(cat "$room/in")"$'\n' ''
}
stack 1024 12000 '' csv
stack 1024 12000 f header csv
stack 4096 32767 '' csv

# With status 2 the input is not read.
printf '1\n2\n' > "$room/in"
shell 0 $'1\n2\n' $'fixdec_lines: no such word: up (--help lists all)\n' '{ fixdec_lines up; cat; } < "$room/in"'

# Status 3: standard output or standard input fails. If standard error cannot be written, the status is the same.
shell 3 '' $'output\n' 'fixdec_lines < "$room/in" > /dev/full'
shell 3 '' $'output\n' 'fixdec_lines < "$room/in" >&-'
shell 3 '' $'input\n' 'fixdec_lines < /'
shell 1 $'1\n\n2\n' '' 'printf "1\nx\n2\n" | fixdec_lines skip 2> /dev/full'
"$room/fixdec_lines" > "$room/out" 2> "$room/err" <&-
found=$?
[ "$found" = 0 ] || [ "$found" = 3 ]
judge $? "fixdec_lines <&-: status $found"

# Through pipes, a line at a time: each line is read whole. A closed pipe ends a program without a line, with status 3.
slowly() { printf '1'; sleep 0.2; printf '2\n3'; sleep 0.2; printf '4\n'; }
shell 0 $'1.2\n3.4\n' '' 'slowly | fixdec_lines shift:-1'
shell 3 $'10\n' '' 'seq 100000 | fixdec_lines shift:1 | head -n 1; exit "${PIPESTATUS[1]}"'
shell 3 $'one\n' '' 'plural ru $(seq 100000) | head -n 1; exit "${PIPESTATUS[0]}"'

# A column cut out of a table, rounded and pasted back.
printf 'tea,2.345\nmilk,0.995\n' > "$room/table"
shell 0 $'tea,2.34\nmilk,1.00\n' '' \
  'cut -d, -f2 "$room/table" | fixdec_lines round:-2:half-even:1 | paste -d, <(cut -d, -f1 "$room/table") -'

# Long lines: 65,537 bytes with a text, 200,000 bytes with one, and 200,000 bytes without.
zeros=$(printf '%032767d' 0)
lines 0 "1$zeros.0$zeros"'\n7\n' "1$zeros.0$zeros"$'\n7\n' ''
lines 0 "1e$(printf '%0199997d' 3)"'\n7\n' $'1000\n7\n' ''
lines 1 "7\n$(printf '%0200000d' 0)"'\n8\n' $'7\n' $'line 2: start: limit\n'

# Long fields, and many of them.
commas=$(printf '%032766d' 0 | tr 0 ,)
lines 0 "${commas}250\n" "${commas}2.50"$'\n' '' field:32767 delimiter:, shift:-2
quotes=$(printf '%0200000d' 0 | tr 0 '"')
lines 0 "$quotes,250\n" "$quotes"$',2.50\n' '' csv field:2 shift:-2
lines 1 "$quotes\",250\n" '' $'line 1: quote\n' csv field:2 shift:-2

# A record of 1 MiB, one of a byte more, and a quote that is never closed.
most=$(printf '%01048571d' 0)
lines 0 "\"$most\n\",1\n2,3" "\"$most"$'\n",10\n2,30\n' '' records csv field:2 shift:1
lines 1 "\"0$most\n\",1\n2,3" $'\n2,30\n' $'line 1: quote\n' skip records csv field:2 shift:1
lines 1 "\"$most\n0000\n2,3\n4,5" $'\n2,30\n4,50\n' $'line 1: quote\n' skip records csv field:2 shift:1

# Many lines.
for ((i = 0; i < 20000; i++)); do echo "$i.125"; done > "$room/many"
"$room/fixdec_lines" round:-2:half-even:1 < "$room/many" > "$room/out" 2> "$room/err"
[ $? = 0 ] && [ "$(wc -l < "$room/out")" = 20000 ] && [ "$(tail -n 1 "$room/out")" = 19999.12 ]
judge $? 'many lines'

# Little memory for a line of 30,000,000 bytes.
{ echo 7; head -c 30000000 /dev/zero | tr '\0' x; echo; } > "$room/in"
little_memory 'line 2: memory' "$(seq 2000 4000 130000)" 1 $'7\n' $'line 2: start: syntax\n' fixdec_lines

help fixdec_lines 'usage: fixdec_lines [OPTION].. [read:LOCALE] [CALL].. [format:LOCALE]'
lines 0 '1\n' "fixdec_lines $version"$'\n' '' --version
wrong 'no such word: --version (--help lists all)' --version skip
sed -n '/static LOCALES:/,/^];/s/.*tag: \*b"\([a-z0-9-]*\) *".*/\1/p' \
  crates/locale_data/src/tables/symbols.rt > "$room/tags"
"$room/fixdec_lines" --locales < /dev/null | cmp -s - "$room/tags" && [ "$(wc -l < "$room/tags")" -gt 300 ]
judge $? 'fixdec_lines --locales'

# ---- plural

one='one: i = 1 and v = 0'

# Status 0, 1 and 2: the categories of the texts before an error are printed.
row plural 0 $'one\nother\nother\n' '' "$one" 1 1.0 1c6
row plural 0 $'two\n' '' en:ordinal 22
row plural 1 '' $'rules: syntax at 4\n' 'one i = 1' 1
row plural 1 '' $'rules: syntax at 0\n' '' 2
row plural 1 '' $'rules: limit at 9\n' 'one: n = 18446744073709551616' 1
row plural 1 '' $'text 1: syntax\n' "$one" x
row plural 1 $'one\nother\n' $'text 3: limit\n' "$one" 1 2 1e99999 1
row plural 2 '' $'plural: no TEXT\n'
row plural 2 '' $'plural: a word is not UTF-8\n' "$one" $'1\xff'
row plural 2 '' $'unknown locale: xx\n' xx 1
row plural 2 '' $'plural: no such type: ordnial\n' en:ordnial 1

# Status 3: standard output fails. If standard error cannot be written, the status is the same.
shell 3 '' $'output\n' 'plural "$one" 1 > /dev/full'
shell 3 '' $'output\n' 'plural "$one" 1 x > /dev/full'
shell 1 $'one\n' '' 'plural "$one" 1 x 2> /dev/full'

# Little memory for texts of 20000 digits.
digits=$(printf '%020000d' 7)
little_memory memory "$(seq 1000 20 6000)" 0 $'other\nother\n' '' plural "$one" "$digits" "$digits"

help plural 'usage: plural RULES TEXT..'
row plural 0 "plural $version"$'\n' '' --version
row plural 1 '' $'rules: syntax at 0\n' --version 1

finish
