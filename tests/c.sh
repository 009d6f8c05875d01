#!/usr/bin/env bash
# Builds the C library and tries it from C, Python and SQLite. Needs gcc and python3; what else is missing is a line
# `not run: ..`, and a failure under ALL=1: Python's headers and pip, sqlite3 with its headers, valgrind. With
# BUILT_BY_GATE set nothing is proved. The last line is `N passed, M failed`; the status is 0 if M is 0.
set -u
unset CDPATH
cd -- "$(dirname -- "$0")/.." || exit 1
. tests/programs.sh

# try NAME COMMAND..: the command succeeds; its output is shown if not.
try() {
  "${@:2}" > "$room/log" 2>&1 || { tail -n 20 "$room/log"; false; }
  judge $? "$1"
}

# compile NAME FLAG..: compiles a test over the static library.
compile() {
  gcc -std=gnu11 -Wall -Wextra -Werror -g "c/tests/$1.c" c/out/libfixed_decimal.a "${@:3}" -o "$room/$2"
}

for tool in gcc python3; do
  command -v $tool > /dev/null
  judge $? "$tool is there"
done
try 'c/build.sh' bash c/build.sh
PREFIX=$room/prefix BUILT_BY_GATE=1 try 'c/build.sh install' bash c/build.sh install
export LD_LIBRARY_PATH=$room/prefix/lib

# ---- C
try 'the header in C99' gcc -std=c99 -pedantic -Wall -Wextra -Werror -fsyntax-only -x c c/fixed_decimal.h
try 'the header in C++' g++ -std=c++17 -Wall -Wextra -Werror -fsyntax-only -x c++ -include c/fixed_decimal.h /dev/null
try 'the tests compile' compile test test_plain -O1
try 'each export, at each capacity' "$room/test_plain"
try 'the same with sanitizers' compile test test_asan -O1 -fsanitize=address,undefined -fno-sanitize-recover=all
try 'sanitizers' "$room/test_asan"
try 'the test of formatters compiles' compile formatter formatter_plain -O1
try 'formatters that are kept, and any bytes as one' "$room/formatter_plain"
try 'the same with sanitizers' compile formatter formatter_asan -O1 -fsanitize=address,undefined \
  -fno-sanitize-recover=all
try 'formatters, sanitizers' "$room/formatter_asan"
try 'options and their skeletons' python3 tests/skeleton_options.py 5000
if command -v valgrind > /dev/null; then
  checker=(valgrind -q --error-exitcode=9 --leak-check=full --show-leak-kinds=all)
  try 'valgrind' "${checker[@]}" "$room/test_plain"
  try 'formatters, valgrind' "${checker[@]}" "$room/formatter_plain"
else
  missing valgrind
fi
try 'the test of memory' compile memory memory -O1 -Wl,--wrap=malloc,--wrap=realloc,--wrap=free
try 'each allocation fails in turn' "$room/memory"
try 'the test of threads' compile threads threads -O1 -fsanitize=thread -lpthread
try 'four threads' "$room/threads"
try 'the example' gcc -std=c99 -Wall -Wextra -Werror c/example.c "-I$room/prefix/include" "-L$room/prefix/lib" \
  -lfixed_decimal -o "$room/example"
[ "$("$room/example")" = 1.234,56 ]
judge $? 'the example writes 1.234,56'
block docs/C.md invoice.c > "$room/invoice.c"
try 'the program of docs/C.md' gcc -std=c99 -Wall -Wextra -Werror "$room/invoice.c" "-I$room/prefix/include" \
  "-L$room/prefix/lib" -lfixed_decimal -o "$room/invoice"
writes docs/C.md ./invoice "$room/invoice"
{
  printf '#include <fixed_decimal.h>\n#include <stdio.h>\nint main(void) {\n'
  block docs/C.md FD_NAME
  printf 'fd_made made = fd_formatter_by_options((const uint8_t *)"en", 2, &options);
    uint8_t text[64];
    fd_result result = fd_format(&made.formatter, (const uint8_t *)"5", 1, text, sizeof text);
    return printf("%%.*s", (int)result.count, (const char *)text) < 0;\n}\n'
} > "$room/speed.c"
try 'the options of docs/C.md' gcc -std=c99 -Wall -Wextra -Werror "$room/speed.c" "-I$room/prefix/include" \
  "-L$room/prefix/lib" -lfixed_decimal -o "$room/speed"
found=$("$room/speed")
[ "$found" = '5 kilometers per hour' ]
judge $? "the options of docs/C.md write '$found'"
sed -n 's/^[a-z].*\b\(fd_[a-z0-9_]*\)(.*/\1/p; /enum fd_status {/,/}/s/^ *\(FD_[A-Z_]*\) = .*/\1/p' \
  c/fixed_decimal.h > "$room/names"
while read -r name; do grep -q "\`$name\`" docs/C.md || echo "$name"; done < "$room/names" > "$room/unnamed"
grep -qx fd_run "$room/names" && grep -qx FD_MEMORY "$room/names" && [ ! -s "$room/unnamed" ]
judge $? "docs/C.md names each function and each status: $(tr '\n' ' ' < "$room/unnamed")"
nm -D --defined-only c/out/libfixed_decimal.so | awk '{ print $3 }' > "$room/exports"
grep -qx fd_run "$room/exports" && ! grep -q -v '^fd_' "$room/exports"
judge $? "the shared library exports no other names: $(grep -v '^fd_' "$room/exports" | tr '\n' ' ')"
version=$(sed -n 's/^#define FD_VERSION //p' c/fixed_decimal.h)
readelf -d c/out/libfixed_decimal.so | grep -q "SONAME.*\[libfixed_decimal\.so\.$version\]"
judge $? "the soname of the shared library has the version of the interface, $version"

# ---- Python
if python3 -c 'import sysconfig, os; assert os.path.exists(sysconfig.get_path("include") + "/Python.h")' 2> /dev/null &&
  python3 -m pip --version > /dev/null 2>&1; then
  try 'pip install' python3 -m pip install --no-index --quiet --target "$room/python" ./python
  PYTHONPATH=$room/python try 'Python beside decimal' python3 python/tests/test_fixed_decimal.py
  example=$(grep -o 'Decimal("1234.565")[^`]*' README.md)
  found=$(PYTHONPATH=$room/python python3 -c "from fixed_decimal import Decimal; print($example)")
  [ "$found" = 1.234,56 ]
  judge $? "README's example in Python: $found"
  block docs/PYTHON.md prices.py > "$room/prices.py"
  PYTHONPATH=$room/python writes docs/PYTHON.md 'python3 prices.py' python3 "$room/prices.py"
else
  missing "Python's headers and pip"
fi

# ---- SQLite
if command -v sqlite3 > /dev/null && echo '#include <sqlite3ext.h>' | gcc -E -x c - > /dev/null 2>&1; then
  try 'the extension' gcc -shared -fPIC -O2 -Wall -Wextra -Werror -Ic examples/sqlite/fixdec.c \
    c/out/libfixed_decimal.a -o "$room/fixdec.so"
  block docs/SQL.md prices-sqlite.sql > "$room/prices-sqlite.sql"
  writes docs/SQL.md 'sqlite3 :memory: < prices-sqlite.sql' \
    bash -c 'cd "$0" && sqlite3 :memory: < prices-sqlite.sql' "$room"
  # row SQL RESULT [COMMAND..]: the result, after these commands
  row() {
    found=$(sqlite3 "${@:3}" -cmd ".load $room/fixdec" :memory: "$1" 2>&1)
    [ "$found" = "$2" ]
    judge $? "$1: $found"
  }
  # selects RESULT EXPRESSION..: the result of a SELECT of these expressions
  selects() {
    listed "${@:2}"
    row "SELECT $list" "$1"
  }
  # joins EXPRESSION VALUES RESULT: the results of an expression for these rows of values, in one text
  joins() {
    row "SELECT group_concat($1, ' ') FROM (VALUES $2)" "$3"
  }
  # rejects FUNCTION 'ARGUMENTS|LINE'..
  rejects() {
    for call in "${@:2}"; do
      found=$(sqlite3 -cmd ".load $room/fixdec" :memory: "SELECT $1(${call%|*})" 2>&1)
      [[ $found == *"${call#*|}"* ]]
      judge $? "$1(${call%|*}): $found"
    done
  }
  row "SELECT fixdec('1234.565', 'round:-2:half-even:1', 'format:de')" 1.234,56
  row "SELECT fixdec('1.234,5', 'read:de', 'shift:2', 'pad-end:-1', 'sign:minus', 'format:en-IN')" -1,23,450.0
  row "SELECT fixdec('12', 'concat:0.5', 'concat:0.005', 'display:always')" +12.505
  row "SELECT length(fixdec('1', 'pad-end:-32768')), fixdec(250)" '32770|250'
  row "SELECT fixdec() IS NULL, fixdec(NULL, 'trim-end') IS NULL, fixdec('1', NULL) IS NULL, plural(NULL, 1) IS NULL" \
    '1|1|1|1'
  row "SELECT plural('one: i = 1 and v = 0', '1'), plural('one: i = 1 and v = 0', '1.0')" 'one|other'
  row "SELECT plural('ru', 2), plural('en:ordinal', '22'), plural('en_GB.UTF-8:cardinal', '1.0'), plural('ja', 1)" \
    'few|two|other|other'
  row "SELECT format_number('de', 'currency/INR', '1234567'), format_number('es', 'KK', '-1234.5')" \
    $'1.234.567,00\u00a0₹|-1,2 mil'
  row "SELECT fixdec('-1234.5', 'format:es:KK'), fixdec('1234.56', 'shift:2', 'format:de:currency/INR')" \
    $'-1,2 mil|123.456,00\u00a0₹'
  row "SELECT fixdec('1 234,5', 'read:fr:lenient', 'format:de:never'), fixdec('1234', 'format:es:always')" \
    '1234,5|1.234'
  row "SELECT format_number('uk', 'percent', 5300000), format_number('uk', NULL, 1) IS NULL" $'5\u00a0300\u00a0000%|1'
  selects '-123450|0.125' "fixdec('-1.234,50' || char(160) || '€', 'read:de:currency/EUR', 'shift:2')" \
    "fixdec('12.5%', 'read:en:%x100 .0')"
  row "SELECT fixdec('EUR 1.234,5', 'read:de:lenient:currency/EUR', 'format:en:currency/EUR .00')" '€1,234.50'
  values="('b'), ('10'), ('9.50'), ('a'), ('-1e2'), ('9.5')"
  ordered="SELECT column1 AS x FROM (VALUES $values) ORDER BY x COLLATE decimal_compare, x"
  row "SELECT group_concat(x, ' ') FROM ($ordered)" '-1e2 9.5 9.50 10 a b'
  row "SELECT format_number('de', 'style', 'currency', 'currency', 'EUR', 1234.5), format_number('en', '1234.5678')" \
    $'1.234,50\u00a0€|1,234.568'
  selects $'12,5\u00a0%|' "format_number('fr', 'style', 'percent', 'maximumFractionDigits', 1, '0.125')" \
    "format_number('de', NULL, 1, 5)"
  selects '١٫٢ millones' \
    "format_number('es', 'notation', 'compact', 'compactDisplay', 'long', 'numberingSystem', 'arab', 1234567)"
  row "SELECT read_number('de', 'style', 'currency', 'currency', 'EUR', '-1.234,57' || char(160) || '€')" -1234.57
  selects '1,234,567.891 mpg|3 dni' \
    "format_number('en', 'style', 'unit', 'unit', 'mile-per-gallon', '1234567.891')" \
    "format_number('pl', 'style', 'unit', 'unit', 'day', 'unitDisplay', 'long', 3)"
  selects '42.00 US dollars|5.' \
    "format_number('en', 'style', 'currency', 'currency', 'USD', 'currencyDisplay', 'name', 42)" \
    "format_number('en', 'decimalSeparator', 'always', 5)"
  row "SELECT length(format_number('en', 'useGrouping', 'always', printf('%.*c', 300, '7')))" 399
  selects '-1234.57|1' "read_number('de', 'currency/EUR', '-1.234,57' || char(160) || '€')" \
    "read_number('en', NULL, '1') IS NULL"
  selects '5.00|5.00' "format_number('en', 'minimumFractionDigits', '2', 5)" \
    "format_number('en', 'minimumFractionDigits', 2, 5)"
  row "SELECT fixdec(x'312e35', x'73686966743a31'), fixdec(x'31', 'concat:0.' || printf('%.*c', 3, '7'))" '15|1.777'
  row "SELECT length(fixdec('1', 'concat:0.' || printf('%.*c', 2100, '7')))" 2102
  row "SELECT fixdec('1'$(printf ", 'shift:1'%.0s" {1..60}))" \
    1000000000000000000000000000000000000000000000000000000000000
  selects '1|1|1.5' "try_fixdec('x', 'trim-end') IS NULL" "try_fixdec('10', 'shift:32767') IS NULL" \
    "try_fixdec('1.50', 'trim-end')"
  selects '1|1|1' "try_fixdec('12', 'concat:25') IS NULL" "try_fixdec('1', 'format:de:K')" \
    "try_fixdec(printf('%.*c', 32769, '1')) IS NULL"
  selects '1|1.50' "try_read_number('de', 'useGrouping', 'auto', 'x') IS NULL" \
    "try_read_number('de', 'currency/EUR', '1,50' || char(160) || '€')"
  selects '1250000|1200000|1200|1' "read_number('en', 'K', '1.25M')" \
    "read_number('de', 'notation', 'compact', '1,2' || char(160) || 'Mio.')" \
    "read_number('en', 'scientific', '1.2E3')" "try_read_number('en', 'K', '1250K') IS NULL"
  row "SELECT try_read_number('de', 'currency/EUR', '1 USD') IS NULL, try_read_number('de', '', '1.234,5')" '1|1234.5'
  for encoding in 8 16le 16be; do
    row "SELECT fixdec(x'3132', 'shift:1'), fixdec(CAST(CAST('12' AS BLOB) AS TEXT), CAST(x'73686966743a31' AS BLOB))" \
      '120|120' -cmd "PRAGMA encoding='UTF-$encoding'"
    row "SELECT try_fixdec(x'31003200') IS NULL, fixdec(12, 'format:fr'), fixdec('1,5', 'read:fr'), plural('en', 1)" \
      '1|12|1.5|one' -cmd "PRAGMA encoding='UTF-$encoding'"
  done
  rejects fixdec "'1x', 'trim-end'|start: syntax" "'10', 'trim-end', 'shift:32767'|call 1: overflow" \
    "'1', 'trimm'|no such call" "'1', 'round:0:up:1'|no such call" "'1', 'format:tlh'|unknown locale" \
    "'1', 'round:0:ceil:3'|no such call" "'12', 'concat:25'|call 0: overlap" "'1', 'read:vec:K'|skeleton: no reader" \
    "'1', 'format:de:'|no such call" "'1', 'read:de:lenient:'|no such call" \
    "'1 USD', 'read:de:currency/EUR'|start: syntax" "'x', 'read:de:percent/w'|skeleton: syntax at 7" \
    "'x', 'format:de:percent/w'|skeleton: syntax at 7" "'1', 'format:tlh:K'|unknown locale" \
    "'1e32766', 'shift:1', 'format:en:scale/100'|format: overflow" "zeroblob(1000001)|start: syntax"
  rejects fixdec "'5', 'shift:4294967298'|no such call" "'5', 'shift:65537'|no such call" \
    "'5', 'shift: 2'|no such call" "'5', 'shift:+2'|no such call" "'5', 'shift:0000002'|no such call" \
    "'5', 'shift:'|no such call" "'5', 'round:0:ceil:4294967297'|no such call" "'5', 'round:0:ceil: +1'|no such call" \
    "'5', 'round:0:ceil'|no such call" "'5', x'73686966743a3200'|no such call" \
    "'5', CAST(x'73686966743a3200' AS TEXT)|no such call" "'5', x'ff'|no such call" "'5', ''|no such call" \
    "'5', 7|no such call" "'5', 'format'|no such call" "'5', 'sign:minus:'|no such call" \
    "'1', 'shift:1', 'read:de'|no such call" "'1', 'read:de', 'read:de'|no such call" "'1', 'read:de:'|no such call" \
    "'1', 'format:de', 'shift:1'|no such call" "'1', 'format:de', 'format:en'|no such call" \
    "'1', 'format:'|unknown locale" "'1', 'read:'|unknown locale" "'1', 'format::K'|unknown locale" \
    "'1', 'format::x/'|skeleton: syntax at 0" "'1', 'format:de:auto:K'|skeleton: syntax at 0" \
    "'1', CAST(x'666f726d61743a64650078' AS TEXT)|unknown locale" "'1', 'concat:x'|call 0: syntax" \
    "'1', x'636f6e6361743a313200'|call 0: syntax"
  rejects try_fixdec "'1', 'trimm'|no such call" "'x', 'format:tlh'|unknown locale" "'1', 'concat:x'|call 0: syntax" \
    "'x', 'format:de:percent/w'|skeleton: syntax at 7"
  rejects try_read_number "'tlh', '', 'x'|unknown locale" "'en', 'style', 'units', 'x'|no such option" \
    "'vec', 'K', 'x'|skeleton: no reader" "'vec', 'notation', 'compact', 'x'|no reader of such numbers"
  rejects plural "'one: n =', '1'|rules: syntax at 8" "'xx', '1'|unknown locale" \
    "'en:nominal', '1'|rules: syntax at 0" "'en', '1x'|start: syntax"
  rejects format_number "'tlh', 'percent/w', 'x'|skeleton: syntax at 7" \
    "'en', '.00 rounding-mode-half-odd', '1'|skeleton: unsupported at 4" "'tlh', 'percent', 'x'|unknown locale" \
    "'en', 'percent', '1x'|start: syntax" "'en', 'scale/100', '1e32767'|format: overflow" \
    "'en'|a locale, names with values, and a number" "|a locale, names with values, and a number" \
    "'en', 'style', 'percent', 'notation', 5|a locale, names with values, and a number" \
    "'en', 'style', 1|skeleton: syntax at 0" "'en', 'style', 'units', 1|no such option" \
    "'en', 'style', 'unit', 1|unknown option" "'en', 'unit', 'furlong', 1|unknown unit" \
    "'en', 'style', 'currency', 1|unknown option" "'en', 'minimumIntegerDigits', 22, 1|no such numbers of digits" \
    "'en', 'minimumIntegerDigits', -1, 1|no such option" "'tlh', 'notation', 'compact', 1|unknown locale" \
    "'en', 1, 'style', 'percent'|no such option"
  for digits in "'abc'" "''" 4294967298 65535 2.9 2.0 "x'32'" "'+2'" "' 2'" "CAST(x'3200' AS TEXT)"; do
    rejects format_number "'en', 'minimumFractionDigits', $digits, 5|no such option"
  done
  rejects format_number "'en', CAST(x'7374796c6500' AS TEXT), 'percent', 5|no such option" \
    "'en', 'style', x'70657263656e74', 5|no such option" \
    "'en', 'style', CAST(x'70657263656e7400' AS TEXT), 5|no such option" "'en', 'useGrouping', 0, 5|no such option" \
    "'en', 'numberingSystem', 'arab ', 5|no such option" \
    "'en', 'numberingSystem', CAST(x'00' AS TEXT), 5|no such option" "'en', 'numberingSystem', '', 5|unknown option"
  rejects read_number "'vec', 'notation', 'compact', '1'|no reader of such numbers" \
    "'en', 'notation', 'standard', '1x'|start: syntax" "'vec', 'K', '1'|skeleton: no reader" \
    "'en', 'K', '1200'|start: syntax" "'en', 'percent/w', 'x'|skeleton: syntax at 7" \
    "'en', 'style', '1'|skeleton: syntax at 0"
  # A formatter is kept for the rows with the same arguments before the number, and for no others.
  space=$'\u00a0'
  for amounts in "format_number('de', 'style', 'currency', 'currency', column1, column2)" \
    "format_number('de', 'currency/' || column1, column2)"; do
    joins "$amounts" "('EUR', 1), ('EUR', 2), ('USD', 3), ('JPY', 4), ('EUR', 5), (NULL, 6), ('USD', 7)" \
      "1,00$space€ 2,00$space€ 3,00$space$ 4$space¥ 5,00$space€ 7,00$space$"
  done
  joins "format_number(column1, 'style', 'percent', column2)" "('en', 1), ('de', 2), ('en', 3), ('en', 4.5)" \
    "100% 200$space% 300% 450%"
  joins "format_number('en', 'minimumFractionDigits', column1, column2)" \
    "(1, 1), ('1', 2), (2, 3), (NULL, 4), (1, 5)" '1.0 2.0 3.00 5.0'
  joins "format_number('en', column1, column2, 5)" \
    "('style', 'percent'), ('minimumFractionDigits', 2), ('style', 'percent')" '500% 5.00 500%'
  joins "read_number('de', 'currency/' || column1, column2)" \
    "('EUR', '1,50' || char(160) || '€'), ('USD', '2,50' || char(160) || '$'), ('EUR', '3,50' || char(160) || '€')" \
    '1.50 2.50 3.50'
  amount="try_read_number('de', 'currency/' || column1, '1,50' || char(160) || '€')"
  row "SELECT count($amount) FROM (VALUES ('EUR'), ('USD'), ('EUR'))" 2
  joined="group_concat(format_number('en', a.column1, b.column1), ' ')"
  row "SELECT $joined || format_number('de', 'percent', 5) FROM (VALUES ('percent'), ('.00')) a, (VALUES (1), (2)) b" \
    "1% 2% 1.00 2.005$space%"
  found=$(sqlite3 -cmd ".load $room/fixdec" :memory: \
    "SELECT format_number('en', 'style', column1, 5) FROM (VALUES ('percent'), (x'70657263656e74'))" 2>&1)
  [[ $found == *'no such option'* && $found == *500%* ]]
  judge $? "a BLOB after a text of the same bytes: $found"
  indexed="format_number('en', 'currency/' || c, x)"
  statements="CREATE TABLE t (c, x, y AS (format_number('de', 'currency/' || c, x)) STORED);"
  statements+=" CREATE INDEX i ON t ($indexed);"
  statements+=" INSERT INTO t VALUES ('EUR', 1), ('USD', 2);"
  statements+=" SELECT group_concat(y, ' ') FROM t;"
  statements+=" SELECT count(*) FROM t WHERE $indexed = '\$2.00'"
  row "$statements" "1,00$space€ 2,00$space$"$'\n'1
  for value in 'zeroblob(50000000)' 'CAST(zeroblob(50000000) AS TEXT)'; do
    found=$(sqlite3 -cmd ".load $room/fixdec" -cmd 'PRAGMA hard_heap_limit=10000000' :memory: \
      "SELECT fixdec($value)" 2>&1)
    [[ $found == *'out of memory'* ]]
    judge $? "fixdec($value), with 10 MB: ${found##*$'\n'}"
  done
  try 'the test of memory in SQLite compiles' gcc -std=gnu11 -Wall -Wextra -Werror -g -O1 -DSQLITE_CORE -Ic \
    c/tests/sqlite_memory.c examples/sqlite/fixdec.c c/out/libfixed_decimal.a -lsqlite3 \
    -Wl,--wrap=malloc,--wrap=realloc,--wrap=free -o "$room/sqlite_memory"
  try 'each allocation of SQLite fails in turn' "$room/sqlite_memory"
else
  missing 'sqlite3 and its headers'
fi
finish
