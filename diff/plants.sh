#!/usr/bin/env bash
# Plants wrong rules in a copy of the reference, one at a time: each has to be noticed.
#
#   diff/plants.sh ORIGINAL [SECONDS [THREADS]]       after diff/run.sh with the same WORK
#
# Status 0: every one was, and without a wrong rule there is no difference. ONLY=WORD plants only those whose name
# contains the word.
set -euo pipefail
. "$(dirname -- "$0")/common.sh"
export RUSTFLAGS="$RUSTFLAGS -A warnings"
seconds=${1:-8} threads=${2:-$(nproc)}
export LIBRARY=$work/decimal_calls LD_LIBRARY_PATH=$project/c/out FIXED_DECIMAL_LIB=$project/c/out/libfixed_decimal.so
planted=0 unnoticed=0

# Without a wrong rule there is no difference: else each one would be noticed.
build_driver diff
"$work/target/release/diff" "$work/fixdec/fixdec" "$seconds" "$threads" 1 >"$work/unplanted.txt" ||
    die "there are differences, and nothing is planted: $(tail -n 1 "$work/unplanted.txt")"

# plant NAME OLD NEW [FILE]: in that file of rust/src, where OLD occurs once.
plant() {
    case $1 in *"${ONLY:-}"*) ;; *) return 0 ;; esac
    planted=$((planted + 1))
    build_driver diff "$2" "$3" "${4:-reference.rs}"
    local found status=0
    found=$("$work/target/release/diff" "$work/fixdec/fixdec" "$seconds" "$threads" 1) || status=$?
    case "$status ${found##*, }" in
        "1 "*differences*) echo "noticed: $1: ${found##*, }" ;;
        *)
            echo "NOT NOTICED: $1"
            unnoticed=$((unnoticed + 1))
            ;;
    esac
}

plant 'half-even by the digit, not by the quotient' 'quotient.last()' 'units.last()'
plant 'a tie is any 5' '([5], 5) => 2' '(_, 5) => 2'
plant 'a half is more than a half' '([5], 5) => 2' '([5], 5) => 3'
plant 'half-ceil forgets the sign' 'Mode::HalfCeil => up(Mode::HalfExpand, Mode::HalfTrunc)' \
    'Mode::HalfCeil => Mode::HalfExpand'
plant 'expand of what is exact' 'Mode::Expand => !is_exact' 'Mode::Expand => true'
plant 'a rounding is refused one place too early' 'rounded.first() > HIGHEST' 'rounded.first() >= HIGHEST'
plant 'a rounding of 0 leaves its range' 'if !self.is_zero() && self.last < position + 2 {' \
    'if self.is_zero() { return Answer::Ok; }
        if self.last < position + 2 {'
plant 'a rounding does not show what is above the position' 'self.high.max(position - 1).max(self.first())' \
    'self.high.max(self.first())'
plant 'a shift is refused one place too early' 'self.low + delta < LOWEST' 'self.low + delta <= LOWEST'
plant 'a shift of 0 has no limit' 'if self.high + delta > HIGHEST' 'if !self.is_zero() && self.high + delta > HIGHEST'
plant 'a cut leaves the lowest magnitude' 'self.low = self.low.min(position);' ''
plant 'a pad at the end does nothing at 0' 'Call::PadEnd(position) if position <= 0' \
    'Call::PadEnd(position) if position < 0'
plant 'numbers overlap only above' 'if self.last <= other.first()' 'if self.last < other.first()'
plant 'what joins 0 is not shown' 'self.low = self.low.min(other.low);' \
    'if !other.is_zero() { self.low = self.low.min(other.low); }'
plant 'negative shows the sign of 0' 'shown(is_minus && !self.is_zero(), Sign::Minus)' 'shown(is_minus, Sign::Minus)'
plant 'a trim leaves a zero in front' 'Call::TrimStart => self.high = self.first().max(0)' \
    'Call::TrimStart => self.high = self.first().max(self.high.min(1))'
plant '32,768 decimals are too many' 'decimals.len() > 32768' 'decimals.len() >= 32768'
plant 'the limit comes before the grammar' 'if !text.is_empty() {
        return Err(Answer::Syntax);' 'if !text.is_empty() {
        return Err(if whole.len() > 32768 { Answer::Limit } else { Answer::Syntax });'
plant 'zeros in front go with any exponent' 'if value.first() > 0 {' 'if value.first() >= 0 {'
plant 'the exponent of 0 counts' 'Some(delta) if !value.is_zero() => {' 'Some(delta) => {'
plant 'two signs of an exponent' "let is_minus = take(&mut text, signs) == Some(b'-');" \
    "let is_minus = take(&mut text, signs) == Some(b'-');
        take(&mut text, b\"+\");"
plant 'a compact exponent of 256' 'exponent > b"255"' 'exponent > b"256"'
plant 'an integer may have decimals' 'if value.low < 0 {
        return Err(Answer::Limit);' 'if value.low < -1 {
        return Err(Answer::Limit);'
plant 'one digit more in place' '[usize; 2] = [16, 8]' '[usize; 2] = [17, 9]'
plant 'a rounding by 25 wants no memory' 'Call::Round(_, _, 25) =>' 'Call::Round(_, _, 50) =>'
plant 'a sink that fails has taken a byte less' '(Answer::Sink, &text[..room])' \
    '(Answer::Sink, &text[..room.saturating_sub(1)])' compare.rs
plant 'the 0 of the original after a shift is 00' '_ => (0, 0),' '_ => (1, 0),'
plant 'the program tells a refusal by status 2' '(1, format!(' '(2, format!(' program.rs
[ $planted != 0 ] && [ $unnoticed = 0 ]
