#!/usr/bin/env bash
# Makes each allocation of three built programs fail in turn, by a `malloc` that fails once:
#
# - `vectors` checks the rows of tests/allocations.txt, which make each kind of call that allocates. It has to print
#   that all rows hold: a call reports that it is out of memory, changes nothing, and succeeds when it is made again.
#   Where the input itself is not read it prints nothing, and ends with status 1. (c/tests/memory.c has the calls on
#   locales.)
# - `fixdec` has to end with status 3, and `memory` with nothing written, or as ever where it asked again, for less.
# - `fixdec_lines` has to end with status 3, and `memory` with nothing written, or `line N: memory` with the lines
#   before, or as ever where it asked again, for less; and it allocates no more for a thousand lines of at most 16
#   digits than for one, also by number skeletons.
#
# Needs bash and gcc. The last line is `N passed, M failed`; the status is 0 if M is 0.
set -u
unset CDPATH
cd -- "$(dirname -- "$0")/.." || exit 1
. tests/programs.sh
copy_programs vectors fixdec fixdec_lines
cp tests/allocations.txt "$room"
gcc -shared -fPIC -O2 -Wall -Wextra -Werror tests/failing_malloc.c -o "$room/failing_malloc.so" -ldl
judge $? 'the failing malloc'
cd "$room" || exit 1

# fail_at INPUT AT PROGRAM WORD..: runs a program with the allocation of this number failing. Leaves what it wrote in
# AT.out and AT.err, and `ALLOCATIONS STATUS` in AT.end.
fail_at() {
  FAIL_AT=$2 LD_PRELOAD=./failing_malloc.so "./$3" "${@:4}" < "$1" > "$2.out" 2> "$2.err" 9> "$2.end"
  echo $? >> "$2.end"
}
export -f fail_at

# ended AT: the number of allocations of a run and its status, in $count and $status. A run that a signal has ended has
# no number, and then the status is empty.
ended() {
  count=
  status=
  [ ! -f "$1.end" ] || read -r count status < "$1.end"
}

# fail_each INPUT PROGRAM WORD..: counts the allocations of a program into $all, with its status in $own_status, and
# makes each of them fail.
fail_each() {
  rm -f ./*.end ./*.out ./*.err
  fail_at "$1" 0 "${@:2}"
  ended 0
  all=$count own_status=$status
  words="$*"
  [ -n "$own_status" ] && [ "$all" -gt 10 ]
  judge $? "$words: $all allocations"
  seq 1 "${all:-0}" | xargs -P "$(nproc)" -I{} bash -c "fail_at ${1@Q} {} ${*:2}"
}

# A comment of the same length: the allocations of the input alone.
(printf '#' && tr '\n\t' '  ' < allocations.txt) > comment
fail_at comment 0 vectors
ended 0
own=$count
[ -n "$status" ]
judge $? "vectors, on a comment: $own allocations"
fail_each allocations.txt vectors
[ "$own_status" = 0 ] && grep -qx '[1-9][0-9]* rows hold, 0 fail' 0.out
judge $? "vectors: $(cat 0.out)"
for ((at = 1; at <= ${all:-0}; at++)); do
  ended "$at"
  if [ "$status" = 1 ] && [ "$at" -le "$own" ]; then
    [ ! -s "$at.out" ]
  else
    [ "$status" = 0 ] && [ "$count" -gt "$all" ] && cmp -s "$at.out" 0.out
  fi
  judge $? "vectors, allocation $at of $all: status $status, $(head -c 300 "$at.out")"
done

# no_more LINE TEXT WORD..: a thousand lines are converted to this text, with no allocation more than for one.
no_more() {
  yes "$1" | head -n 1000 > many
  head -n 1 many > one
  fail_at one 0 fixdec_lines "${@:3}"
  ended 0
  few=$count
  fail_at many 0 fixdec_lines "${@:3}"
  ended 0
  [ "$status" = 0 ] && [ "$count" = "$few" ] && cmp -s 0.out <(yes "$2" | head -n 1000)
  judge $? "${*:3}: $few allocations for one line, and $count for a thousand, status $status"
}
no_more 12345678901234.56 12345678901234.50 round:-2:half-even:25
euro=$'\xe2\x82\xac' dollars='$12,345,678,901,234.56'
no_more "12.345.678.901.234,56"$'\xc2\xa0'"$euro" "$dollars" read:de:currency/EUR format:en:currency/USD
no_more "$euro 12345678901234,56" "$dollars" read:de:lenient:currency/EUR format:en:currency/USD

# each_ends INPUT PROGRAM WORD..: each allocation fails as said above.
each_ends() {
  fail_each "$@"
  for ((at = 1; at <= ${all:-0}; at++)); do
    ended "$at"
    line=$(sed -n 's/^line \([0-9]*\): memory$/\1/p' "$at.err")
    if [ -n "$status" ] && [ "$count" -gt "$all" ]; then
      # A list that grows asks again, for less.
      [ "$status" = "$own_status" ] && cmp -s "$at.out" 0.out && cmp -s "$at.err" 0.err
    elif [ "$(cat "$at.err")" = memory ]; then
      [ "$status" = 3 ] && [ ! -s "$at.out" ]
    else
      [ "$status" = 3 ] && [ -n "$line" ] && cmp -s "$at.out" <(head -n $((line - 1)) 0.out)
    fi
    judge $? "$words, allocation $at of $all: status $status, $(head -c 100 "$at.err" | tr '\n' '|')"
  done
}
# Those of the words, of their calls, of the buffer, the start, an operand, a concatenation and a rounding.
each_ends /dev/null fixdec 1e20 trim-start concat:0.12345678901234567
each_ends /dev/null fixdec 1234567812345678 round:-1:trunc:25 concat:0.0012345678901234567
# Those of a range: of both texts, of the calls on both numbers, and of the copy of the start.
each_ends /dev/null fixdec 1234567812345678 to:12345678901234567890 round:-1:trunc:25 format:de:currency/EUR
# Those of the reader of a word.
each_ends /dev/null fixdec 1.25M read:en:lenient:K
# Those of lines that get longer, and of long numbers.
printf '70\n12345678901234567890.125\nx\n1e20\n%0200d\n' 5 > in
for mode in '' skip; do
  each_ends in fixdec_lines $mode concat:0.12345678901234567 round:-2:half-even:25
done

finish
