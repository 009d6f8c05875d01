#!/usr/bin/env bash
# Times formatting and reading for a locale beside ICU: `bench/format.sh`.
#
# A row has a locale, a number, the nanoseconds of processor time here and in ICU, and the first over the second, for
# `format` and for `read`; and for `locale`, the look-up of a tag, the time here. `format` here: a text is parsed as a
# decimal, formatted and written into a sink in memory; the row without a locale writes the decimal's own text. In ICU
# it is LocalizedNumberFormatter::formatDecimal of the text, and its text in UTF-8. `read` is DecimalSymbols::read of
# the formatted text, in ICU unum_parseDecimal of it in UTF-16. The symbols and the formatter are made before. Each
# figure is the least of nine batches of 20,000 calls; format/main.rt.txt and format/icu.cpp are what is timed.
#
# WORK, a folder outside the project, takes what is built. Needs bash, the toolchain, python3, and
#
#   apt-get install g++ libicu-dev pkg-config
#
# Take it on a machine that does nothing else.
set -euo pipefail
. "$(dirname -- "$0")/beside_icu.sh"
beside_icu format 'Call | Locale | Number'
