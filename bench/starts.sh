#!/usr/bin/env bash
# Times one run of the program `fixdec` beside C programs, of which the smallest print a constant:
#
#   bench/starts.sh [ROUNDS]
#
# In each of ROUNDS rounds (2000) the programs take turns. A row has the least wall time of a run in microseconds, the
# median of the ratios to the first program's run beside it, the processor time and the page faults of a run, and,
# counted once, its system calls, its instructions, and how many of these are in `main` and what it calls.
#
# `puts` prints a constant, and `puts, static` does so without the loader of shared libraries. `ICU` does the same work
# as `fixdec` by ICU's number formatter. The last two rows are a word of 65,537 bytes, for `puts` and for `fixdec`.
#
# Needs the toolchain, a C compiler, and Debian's libicu-dev, strace and valgrind. Take it on a machine that does
# nothing else.
set -euo pipefail
rounds=${1:-2000}
unset CDPATH
here=$(cd -- "$(dirname -- "$0")" && pwd)
python3 "$here/../tools/built.py" programs fixdec
room=$(mktemp -d)
trap 'rm -rf "$room"' EXIT
cp "$here/../crates/fixdec/out/fixdec" "$room/fixdec"
cd "$room"
chmod +x fixdec
cat > puts.c <<'C'
#include <stdio.h>
int main(void) { return puts("2.50") < 0; }
C
cat > icu.c <<'C'
#include <stdio.h>
#include <string.h>
#include <unicode/unumberformatter.h>
int main(int count, char **words) {
    UErrorCode status = U_ZERO_ERROR;
    const UChar *skeleton = u"scale/0.01 rounding-mode-half-even group-off .00";
    UNumberFormatter *formatter = unumf_openForSkeletonAndLocale(skeleton, -1, "en", &status);
    UFormattedNumber *number = unumf_openResult(&status);
    unumf_formatDecimal(formatter, words[count - 1], strlen(words[count - 1]), number, &status);
    UChar text[64];
    int length = unumf_resultToString(number, text, 64, &status);
    for (int i = 0; i < length; i++)
        putchar(text[i]);
    return putchar('\n') < 0 || U_FAILURE(status);
}
C
cc -O2 -o starts "$here/starts.c"
cc -O2 -o puts puts.c
cc -O2 -static -o puts_static puts.c
cc -O2 -o icu icu.c -licui18n -licuuc
long=$(printf '%032768d.%032768d' 0 0 | tr 0 7)

names=('`puts`' '`puts`, static' '`fixdec 250 shift:-2`' '`fixdec 1234.5678 shift:-2 round:-2:half-even:1`' ICU
    '`puts` of a long word' '`fixdec` of a long word, rounded')
set -- ./puts -- ./puts_static -- ./fixdec 250 shift:-2 -- ./fixdec 1234.5678 shift:-2 round:-2:half-even:1 \
    -- ./icu 250 -- ./puts "$long" -- ./fixdec "$long" round:-100:half-even:1
[ "$(./fixdec 250 shift:-2)" = 2.50 ] && [ "$(./icu 250)" = 2.50 ] || { echo "not 2.50" >&2; exit 1; }

# counted WORD..: a program's system calls, its instructions, and those in main.
counted() {
    strace -o calls "$@" > /dev/null
    valgrind --tool=callgrind --callgrind-out-file=counts "$@" > /dev/null 2> log
    local all main
    all=$(sed -n 's/.*Collected : //p' log)
    main=$(callgrind_annotate --inclusive=yes --threshold=100 counts |
        sed -nE 's/^ *([0-9,]+) .*[:/]main \[.*/\1/p' | head -n 1)
    echo "$(grep -c '(' calls) | $all | ${main//,/}"
}

./starts "$rounds" "$@" > times
echo "| Run | least µs | middle ratio | processor µs | page faults | system calls | instructions | in \`main\` |"
echo "|---|---|---|---|---|---|---|---|"
for at in "${!names[@]}"; do
    words=()
    while [ $# -gt 0 ] && [ "$1" != -- ]; do
        words+=("$1")
        shift
    done
    [ $# = 0 ] || shift
    read -r least ratio processor faults < <(sed -n "$((at + 1))p" times)
    echo "| ${names[at]} | $least | $ratio | $processor | $faults | $(counted "${words[@]}") |"
done
