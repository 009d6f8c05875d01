#!/usr/bin/env bash
# Times the library beside the original and its peers, and prints the tables of docs/SPEED.md:
#
#   bench/run.sh ORIGINAL [--passes N] [--layouts N] [--only WORD]
#
# README.md says what ORIGINAL is.
set -euo pipefail
. "$(dirname -- "$0")/../diff/common.sh"
passes=7 layouts=1 word=
while [ $# -gt 0 ]; do
    case $1 in
        --passes) passes=$2 ;;
        --layouts) layouts=$2 ;;
        --only) word=$2 ;;
        *) die "unknown option: $1" ;;
    esac
    shift 2
done
need_packages librust-smallvec-dev librust-rust-decimal-dev librust-bigdecimal-dev libicu-dev
build decimal_times src/lib.rt "$here/library/" std decimal_digits decimal_unsigned fixed_decimal plural_rules libc
copy_original
export LIBRARY=$work/decimal_times ICU_CALLS=$work/icu_calls MPDEC=$here/mpdec.py
mkdir -p "$ICU_CALLS"
cc -O2 -c -o "$ICU_CALLS/icu_calls.o" "$here/icu_calls.c"
c++ -O2 -c -o "$ICU_CALLS/icu_plurals.o" "$here/icu_plurals.cc"
ar rcs "$ICU_CALLS/libicu_calls.a" "$ICU_CALLS/icu_calls.o" "$ICU_CALLS/icu_plurals.o"
export LLD=$kit/toolchain/bin LAYOUT
rm -f "$work"/tables_*.txt
for LAYOUT in $(seq "$layouts"); do
    build_driver bench
    "$work/target/release/bench" "$passes" ${word:+"$word"} >"$work/tables_$LAYOUT.txt"
done
python3 "$here/layouts.py" "$work"/tables_*.txt
