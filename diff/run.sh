#!/usr/bin/env bash
# Compares the library with the original and with a reference:
#
#   diff/run.sh ORIGINAL [--seconds N] [--threads N] [--seed N]
#
# README.md says what ORIGINAL is. Status 0: no difference was found but the listed ones.
set -euo pipefail
. "$(dirname -- "$0")/common.sh"
seconds=540 threads=$(nproc) seed=1
while [ $# -gt 0 ]; do
    case $1 in
        --seconds) seconds=$2 ;;
        --threads) threads=$2 ;;
        --seed) seed=$2 ;;
        *) die "unknown option: $1" ;;
    esac
    shift 2
done
need_packages librust-smallvec-dev
build decimal_calls src/lib.rt "$here/library/" std decimal_digits decimal_unsigned fixed_decimal
JOBS=$jobs python3 "$project/tools/built.py" programs fixdec
install -D -m 755 "$project/crates/fixdec/out/fixdec" "$work/fixdec/fixdec"
export LIBRARY=$work/decimal_calls
copy_original
copy_host
build_driver diff
exec "$work/target/release/diff" "$work/fixdec/fixdec" "$seconds" "$threads" "$seed"
