#!/usr/bin/env bash
# Times number formatters by skeletons beside ICU: `bench/numbers.sh`.
#
# A row has a call, a locale, a skeleton, a number, the nanoseconds of processor time here, in ICU and in node, if it is
# there, and the ratios to these. The calls are:
#
# - `make`: a formatter is made of options. Here it is NumberFormatter::try_new, in ICU
#   UnlocalizedNumberFormatter::locale, and in node `new Intl.NumberFormat`. ICU and node look up the patterns of a
#   locale only when a number is formatted.
# - `first`: the same, and the formatter formats a number.
# - `format`: a text is parsed as a decimal, formatted and written into a sink in memory; with `decimal` instead of a
#   skeleton by DecimalFormatter. In ICU it is LocalizedNumberFormatter::formatDecimal of the text, and its text in
#   UTF-8; in node Intl.NumberFormat's format of the text.
# - `range`: two texts are parsed, and written as a range. In ICU it is
#   LocalizedNumberRangeFormatter::formatFormattableRange of the texts, in node Intl.NumberFormat's formatRange.
# - `read`: NumberReader::read of the formatted text, in ICU unum_parseDecimal of it in UTF-16, by the style
#   UNUM_CURRENCY or UNUM_PERCENT. ICU does not read compact notation.
#
# What else a call needs is made before. Each figure is the least of nine batches of 20,000 calls. numbers/main.rt.txt,
# numbers/icu.cpp and numbers/node.js are what is timed.
#
# WORK, a folder outside the project, takes what is built. Needs bash, the toolchain, python3, and
#
#   apt-get install g++ libicu-dev pkg-config
#
# Take it on a machine that does nothing else, or as `chrt -f 20 taskset -c 0 bench/numbers.sh`.
set -euo pipefail
. "$(dirname -- "$0")/beside_icu.sh"
beside_icu numbers 'Call | Locale | Skeleton | Number' number_format number_skeleton
