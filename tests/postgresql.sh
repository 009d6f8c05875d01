#!/usr/bin/env bash
# Tries examples/postgresql on a PostgreSQL server of its own, which listens on a socket of a temporary folder. The
# server's files are links to those that are installed, and nothing is installed beside them. As root the server runs as
# the user postgres. Without a server, or without its headers, this is a line `not run: ..`, and a failure under ALL=1.
# With BUILT_BY_GATE set nothing is proved but the exports of the C library. The last line is `N passed, M failed`; the
# status is 0 if M is 0.
set -u
unset CDPATH
cd -- "$(dirname -- "$0")/.." || exit 1
. tests/programs.sh
unset "${!PG@}"

# try NAME COMMAND..: what it writes is shown if it fails.
try() {
  "${@:2}" > "$room/log" 2>&1
  status=$?
  judge $status "$1: $(tail -n 20 "$room/log")"
  return $status
}

config=$(command -v pg_config)
if [ -z "$config" ] || [ ! -f "$("$config" --pgxs)" ] || [ ! -f "$("$config" --includedir-server)/postgres.h" ]; then
  missing 'postgresql-server-dev-15'
  finish
  exit
fi
if [ ! -x "$("$config" --bindir)/initdb" ]; then
  missing 'postgresql'
  finish
  exit
fi
if [ "$(id -u)" = 0 ] && ! id postgres > /dev/null 2>&1; then
  missing 'postgresql, as there is no user postgres'
  finish
  exit
fi

# as WORD..: runs a command as the user of the server, which is not root.
as() {
  if [ "$(id -u)" = 0 ]; then
    exec setpriv --reuid=postgres --regid=postgres --init-groups "$@"
  else
    exec "$@"
  fi
}

# ---- The extension, and a server with it.
copy_programs fixdec_lines
try 'c/build.sh' bash c/build.sh || { finish; exit; }
chmod 755 "$room"
mkdir "$room/data" "$room/made"
[ "$(id -u)" != 0 ] || chown postgres: "$room/data"
cp examples/postgresql/{Makefile,*.c,*.control,*.sql} "$room/made"
cp examples/options.h "$room"
built=(make -C "$room/made" INCLUDE="$PWD/c" LIBRARY="$PWD/c/out/libfixed_decimal.a" PG_CONFIG="$config" COPT=-Werror)
try 'make' "${built[@]}"
try 'make install' "${built[@]}" install DESTDIR="$room/tree"
bin=$room/tree$("$config" --bindir) lib=$("$config" --pkglibdir) share=$("$config" --sharedir)
# The library's own names are not among those that the module gives to the whole server.
nm -D --defined-only "$room/tree$lib/fixed_decimal.so" | awk '{ print $3 }' > "$room/names"
! grep -q '^fd_' "$room/names" && grep -qx fixdec_text "$room/names"
judge $? 'the names of the module'
# A program of the server finds the server's files beside itself.
mkdir -p "$bin" "$room/tree$lib/bitcode"
cp "$("$config" --bindir)"/{initdb,postgres} "$bin"
for folder in "$lib" "$lib/bitcode" "$share" "$share/extension"; do
  ln -s "$folder"/* "$room/tree$folder" 2> "$room/log"
done
(cd / && LC_ALL=C as "$bin/initdb" -D "$room/data" -U postgres -A trust -E UTF8 --no-sync) > "$room/log" 2>&1
judge $? "initdb: $(tail -n 5 "$room/log")"
(cd / && as "$bin/postgres" -D "$room/data" -k "$room/data" -c listen_addresses= -c fsync=off -c max_wal_size=4GB \
  -c autovacuum=off) > "$room/server" 2>&1 &
server=$!
trap 'trap "" TERM; kill -QUIT $server 2> /dev/null; wait $server 2> /dev/null; rm -rf "$room"' EXIT

# sql STATEMENT.. : makes the statements in the database $database, in one session.
sql() {
  local options=()
  for statement in "$@"; do options+=(-c "$statement"); done
  psql -X -q -A -t -h "$room/data" -U postgres -v ON_ERROR_STOP=1 -v VERBOSITY=verbose "${options[@]}" "$database" 2>&1
}

# row SQL RESULT [STATEMENT..]: what an expression gives, after these statements.
row() {
  found=$(sql "${@:3}" "SELECT $1")
  [ "$found" = "$2" ]
  judge $? "$1: ${found:0:500}"
}

# selects RESULT EXPRESSION..: what these expressions give.
selects() {
  listed "${@:2}"
  row "$list" "$1"
}

# rejects 'CODE|LINE' EXPRESSION..: an error with this SQLSTATE and this line.
rejects() {
  for expression in "${@:2}"; do
    found=$(sql "SELECT $expression")
    [ "${found%%$'\n'*}" = "ERROR:  ${1%%|*}: ${1#*|}" ]
    judge $? "$expression: ${found:0:500}"
  done
}

database=postgres
for _ in $(seq 300); do sql 'SELECT 1' > /dev/null && break; sleep 0.1; done
try 'the server' sql 'SELECT 1' || { cat "$room/server"; finish; exit; }
try 'CREATE EXTENSION' sql 'CREATE EXTENSION fixed_decimal'
functions="count(*) FROM pg_proc WHERE probin LIKE '%fixed_decimal'"
row "$functions AND provolatile = 'i' AND proisstrict AND proparallel = 's'" 7
row "$functions" 7

# ---- Results.
block docs/SQL.md prices-postgresql.sql > "$room/prices.sql"
writes docs/SQL.md 'psql -qAt -f prices-postgresql.sql prices' \
  psql -X -qAt -h "$room/data" -U postgres -f "$room/prices.sql" "$database"
nbsp=$'\xc2\xa0'
row "fixdec('1234.565', 'round:-2:half-even:1', 'format:de')" 1.234,56
row "fixdec(1234.565, 'round:-2:half-even:1', 'format:de')" 1.234,56
row "fixdec('1.234,5', 'read:de', 'shift:2', 'pad-end:-1', 'sign:minus', 'format:en-IN')" -1,23,450.0
row "fixdec('12', 'concat:0.5', 'concat:0.005', 'display:always')" +12.505
row "fixdec(250), fixdec('2.50'), fixdec(2.50::numeric(6,3)), fixdec(-0.0), fixdec('-0.0')" '250|2.50|2.500|0.0|-0.0'
row "fixdec('1 234,5', 'read:fr:lenient', 'format:de:never'), fixdec(1234, 'format:es:always')" '1234,5|1.234'
row "fixdec('EUR 1.234,5', 'read:de:lenient:currency/EUR', 'format:en:currency/EUR .00')" '€1,234.50'
row "fixdec('1', VARIADIC '{}'), fixdec('1', VARIADIC '{shift:1,shift:1}'), length(fixdec('1', 'pad-end:-32768'))" \
  '1|100|32770'
row "fixdec('1'$(printf ", 'shift:1'%.0s" {1..60}))" 1000000000000000000000000000000000000000000000000000000000000
row "fixdec('1', 'concat:0.' || repeat('7', 2100)) = '1.' || repeat('7', 2100)" t
row "format_number('de', 'currency/INR', '1234567'), format_number('es', 'KK', -1234.5)" "1.234.567,00$nbsp₹|-1,2 mil"
row "format_number('uk', 'percent', 5300000), format_number('de', '', 1e15)" \
  "5${nbsp}300${nbsp}000%|1.000.000.000.000.000"
row "format_number('en', '.00', 7), format_number('ar-u-nu-arab', '', 12.5)" '7.00|١٢٫٥'
row "read_number('de', 'currency/EUR', '-1.234,57$nbsp€'), read_number('de', '', '1.234,50')" '-1234.57|1234.50'
row "read_number('de', 'currency/EUR', '5,00$nbsp€') + 1, pg_typeof(read_number('en', '', '1'))" '6.00|numeric'
selects "3 dni|12,5$nbsp%" "format_number('pl', ARRAY['style', 'unit', 'unit', 'day', 'unitDisplay', 'long'], 3)" \
  "format_number('fr', '{style,percent,maximumFractionDigits,1}'::text[], 0.125)"
selects '42.00 US dollars|-1234.57' \
  "format_number('en', ARRAY['style', 'currency', 'currency', 'USD', 'currencyDisplay', 'name'], 42)" \
  "read_number('de', ARRAY['style', 'currency', 'currency', 'EUR'], '-1.234,57$nbsp€')"
row "plural('ru', 2), plural('en:ordinal', 22), plural('en_GB.UTF-8:cardinal', 1.0), plural('en', 1)" \
  'few|two|other|one'
row "plural('one: i = 1 and v = 0', 1), plural('one: i = 1 and v = 0', '1.0'), plural('ja', 1)" 'one|other|other'
selects 't|t|t' "fixdec(NULL::text, 'trim-end') IS NULL" "fixdec(NULL::numeric, 'trimm') IS NULL" \
  "fixdec('1', VARIADIC NULL) IS NULL"
selects 't|t|t' "format_number(NULL, '', 1) IS NULL" "format_number('de', NULL, 1) IS NULL" \
  "format_number('de', '', NULL) IS NULL"
selects '1250000|1200000|1200' "read_number('en', 'K', '1.25M')" \
  "read_number('de', ARRAY['notation', 'compact'], '1,2${nbsp}Mio.')" "read_number('en', 'scientific', '1.2E3')"
selects 't|t|t' "read_number(NULL, '', '1') IS NULL" "read_number('de', NULL, '1') IS NULL" \
  "read_number('de', '', NULL) IS NULL"
row "plural(NULL, 1) IS NULL, plural('de', NULL) IS NULL" 't|t'

# ---- Errors.
rejects '22004|a word is NULL' "fixdec('1', NULL)" "fixdec(1, 'trim-end', NULL)" \
  "fixdec('x', VARIADIC ARRAY[NULL, 'trimm'])"
rejects '22023|no such option' "format_number('en', ARRAY['style', 'units'], 1)" \
  "format_number('en', ARRAY['Style', 'unit'], 1)"
rejects '22023|unknown unit' "format_number('en', ARRAY['style', 'unit', 'unit', 'furlong'], 1)"
rejects '22023|unknown option' "format_number('en', ARRAY['style', 'unit'], 1)"
rejects '22023|names of options with values' "format_number('en', ARRAY['style'], 1)"
rejects '22P02|start: syntax' "fixdec('1x', 'trim-end')" "fixdec('')" "fixdec('NaN')" "fixdec(numeric 'NaN')" \
  "fixdec(numeric 'Infinity', 'format:de')" "format_number('de', '', 'NaN')" "format_number('de', '', '-Infinity')" \
  "plural('de', 'NaN')" "plural('one: i = 1', 'Infinity')" "read_number('de', 'currency/EUR', 'x')" \
  "read_number('en', '', 'NaN')" "fixdec('1.2,3', 'read:de')" "fixdec('1 USD', 'read:de:currency/EUR')"
rejects '22003|start: limit' "fixdec(repeat('1', 32769))" "fixdec(repeat('1', 32769)::numeric)" \
  "fixdec('0.' || repeat('1', 32769))" "fixdec(10::numeric ^ 131071)" \
  "format_number('de', '', repeat('1', 32769)::numeric)" "plural('de', repeat('1', 32769)::numeric)" \
  "read_number('en', '', repeat('1', 32769))"
row "length(fixdec(repeat('1', 32768)::numeric)), length(fixdec(('0.' || repeat('1', 16383))::numeric))" '32768|16385'
selects '32768|16385' "length(read_number('en', '', repeat('1', 32768))::text)" \
  "length(read_number('en', '.+', '0.' || repeat('1', 16383))::text)"
for digit in 1 0; do
  rejects '22003|value overflows numeric format' "read_number('en', '.+', '0.' || repeat('$digit', 16384))" \
    "read_number('en', '.+', '1.' || repeat('$digit', 32768))"
done
rejects '22003|call 1: overflow' "fixdec('10', 'trim-end', 'shift:32767')"
rejects '22003|format: overflow' "fixdec('1e32766', 'shift:1', 'format:en:scale/100')" \
  "format_number('en', 'scale/100', ('1' || repeat('0', 32767))::numeric)"
rejects '22023|no such call' "fixdec('1', 'trimm')" "fixdec('1', 'round:0:up:1')" "fixdec('1', 'round:0:ceil:3')" \
  "fixdec(5, '')" "fixdec('5', 'shift:4294967298')" "fixdec('5', 'shift: 2')" "fixdec('5', 'shift:+2')" \
  "fixdec('1', 'format:de:')" "fixdec('1', 'shift:1', 'read:de')" "fixdec('1', 'read:de', 'read:de')" \
  "fixdec('1', 'format:de', 'shift:1')" "fixdec('1', 'format:de', 'format:en')" \
  "fixdec('1', repeat('shift:1', 1000000))" "fixdec(1.234, 'read:de')"
rejects '22023|unknown locale' "fixdec('1', 'format:tlh')" "fixdec('1', 'format:')" \
  "format_number('tlh', 'percent', 1)" "read_number('', '', '1')" "plural('xx', 1)" \
  "format_number(repeat('x', 1000000), '', 1)"
rejects '22023|call 0: overlap' "fixdec('12', 'concat:25')"
rejects '22023|call 0: syntax' "fixdec('1', 'concat:x')"
rejects '22023|call 1: limit' "fixdec('1', 'trim-end', 'concat:' || repeat('1', 32769))"
rejects '22023|skeleton: syntax at 7' "fixdec('x', 'read:de:percent/w')" "format_number('de', 'percent/w', 1)" \
  "read_number('tlh', 'percent/w', 'x')"
rejects '22023|skeleton: unsupported at 4' "format_number('en', '.00 rounding-mode-half-odd', 1)"
rejects '22023|skeleton: syntax at 17' "format_number('en', 'numbering-system/none', 1)"
rejects '22023|skeleton: no reader' "read_number('vec', 'K', '1')" "fixdec('1', 'read:vec:K')"
rejects '22023|rules: syntax at 8' "plural('one: n =', 1)"
rejects '22023|rules: syntax at 0' "plural('en:nominal', 1)" "plural('', 1)"
rejects '22023|rules: limit at 9' "plural('one: n = 18446744073709551616', 1)"
found=$(sql "SELECT fixdec('1', 'trim-end', 'trimm')")
[[ $found == *'DETAIL:  It is word 2.'* ]]
judge $? "the number of a wrong word: $found"
found=$(sql "SELECT fixdec(2.5::float8)")
[[ $found == *'ERROR:  42883: '* ]]
judge $? "a binary fraction: $found"

# ---- Other encodings: the text is converted, or is in UTF-8 where the database has no encoding.
for encoding in LATIN1 SQL_ASCII; do
  database=postgres
  try "a database in $encoding" sql "CREATE DATABASE $encoding ENCODING '$encoding' LOCALE 'C' TEMPLATE template0"
  database=${encoding,,}
  try "CREATE EXTENSION in $encoding" sql 'CREATE EXTENSION fixed_decimal'
done
export PGCLIENTENCODING=UTF8
database=latin1
row "octet_length(format_number('en', 'currency/GBP', 1)), format_number('en', 'currency/GBP', 1)" '5|£1.00'
row "read_number('en', 'currency/GBP', '£1,234.00'), octet_length(fixdec('1234', 'format:uk'))" '1234.00|5'
rejects '22P05|character with byte sequence 0xe2 0x82 0xac in encoding "UTF8" has no equivalent in encoding "LATIN1"' \
  "format_number('en', 'currency/EUR', 1)"
database=sql_ascii
row "octet_length(format_number('de', 'currency/EUR', 1)), format_number('de', 'currency/EUR', 1)" "9|1,00$nbsp€"
row "read_number('de', 'currency/EUR', '1,50$nbsp€')" 1.50
for text in "fixdec(E'\\xff')" "fixdec('1', E'shift:\\xff')" "format_number(E'de\\xff', '', 1)" \
  "plural(E'\\xff', 1)"; do
  rejects '22021|invalid byte sequence for encoding "UTF8": 0xff' "$text"
done
unset PGCLIENTENCODING
database=postgres

# ---- A million rows, beside the program; and in parallel.
prices='SELECT id, (id::bigint * 7919 % 100000000) * 0.001 AS price FROM generate_series(1, 1000000) AS id'
sql "CREATE TABLE prices AS $prices" "COPY prices (price) TO STDOUT" > "$room/prices"
# same WORDS EXPRESSION: of each row, what the program writes.
same() {
  sql "COPY (SELECT $2 FROM prices ORDER BY id) TO STDOUT" > "$room/found"
  eval "\"$room/fixdec_lines\" $1" < "$room/prices" | cmp -s - "$room/found"
  judge $? "a million rows by $2: $(head -n 1 "$room/found")"
}
[ "$(wc -l < "$room/prices")" = 1000000 ]
judge $? 'a million prices'
same 'round:-2:half-even:1 format:de' "fixdec(price, 'round:-2:half-even:1', 'format:de')"
same "'format:de:currency/EUR .00'" "format_number('de', 'currency/EUR .00', price)"
# The locale and the words of each row may be others.
row "count(*) FROM prices WHERE read_number('fr', '.+', format_number('fr', '.+', price)) = price" 1000000
values="(VALUES ('de', ''), ('de', '.00'), ('en', '.00'), ('de', '')) AS v(l, s)"
row "string_agg(x, ' ') FROM (SELECT format_number(l, s, 1234.5) AS x FROM $values) AS t" \
  '1.234,5 1.234,50 1,234.50 1.234,5'
values="(VALUES ('shift:1'), ('shift:2'), ('shift:2'), ('trim-end')) AS v(w)"
row "string_agg(x, ' ') FROM (SELECT fixdec(12.5, w) AS x FROM $values) AS t" '125 1250 1250 12.5'
values="(VALUES ('ru', 2), ('en', 1), ('few: i = 7', 7), ('few: i = 7', 8)) AS v(l, n)"
row "string_agg(plural(l, n), ' ') FROM $values" 'few one few other'
parallel=('SET parallel_setup_cost = 0' 'SET parallel_tuple_cost = 0' 'SET min_parallel_table_scan_size = 0'
  'SET max_parallel_workers_per_gather = 2')
sums="sum(hashtextextended(fixdec(price, 'round:-2:half-even:1', 'format:de'), 0))"
sums+=", sum(hashtextextended(format_number('hi', 'K', price), 0))"
sums+=", sum(read_number('en', '.+', price::text))"
sums+=", sum(length(plural('ru', price)))"
sums+=" FROM prices WHERE id % 10 = 0"
serial=$(sql 'SET max_parallel_workers_per_gather = 0' "SELECT $sums")
found=$(sql "${parallel[@]}" "EXPLAIN (ANALYZE, TIMING OFF) SELECT $sums")
[[ $found == *'Workers Launched: 2'* && $found == *'Partial Aggregate'* ]]
judge $? "parallel workers: $found"
row "$sums" "$serial" "${parallel[@]}"
row "$sums" "$serial" 'SET jit = on' 'SET jit_above_cost = 0' \
  'SET jit_inline_above_cost = 0' 'SET jit_optimize_above_cost = 0' 'SET max_parallel_workers_per_gather = 0'
# An index on an expression.
row "count(*) FROM prices WHERE fixdec(price, 'format:de') = '7,919'" 1 \
  "CREATE INDEX shown ON prices (fixdec(price, 'format:de'))" 'SET enable_seqscan = off'
# A statement is canceled between rows, and the session goes on.
found=$(psql -X -q -A -t -h "$room/data" -U postgres -v VERBOSITY=sqlstate -c 'SET statement_timeout = 300' \
  -c "SELECT sum(length(fixdec(n, 'shift:1', 'format:de'))) FROM generate_series(1, 1000000000) AS n" \
  -c "SELECT fixdec(7, 'shift:1')" postgres 2>&1)
[ "$found" = $'ERROR:  57014\n70' ]
judge $? "a statement that is canceled: $found"

# ---- Memory: each allocation of the library fails in turn, and none is left when a function has returned or failed.
cp tests/postgresql_memory.c "$room/made/memory.c"
try 'the test of memory' "${built[@]}" clean all OBJS='fixed_decimal.o memory.o' \
  SHLIB_LINK="$PWD/c/out/libfixed_decimal.a -Wl,--exclude-libs,ALL,--wrap=malloc,--wrap=realloc,--wrap=free"
cp "$room/made/fixed_decimal.so" "$room/tree$lib/fixed_decimal_memory.so"
try 'the functions of that test' sql 'CREATE SCHEMA memory' 'SET search_path = memory' \
  "$(sed '/^\\echo/d; s/MODULE_PATHNAME/$libdir\/fixed_decimal_memory/' examples/postgresql/*.sql)" \
  "CREATE FUNCTION fail_at(int) RETURNS int STRICT LANGUAGE C AS '\$libdir/fixed_decimal_memory'" \
  "CREATE FUNCTION held() RETURNS int LANGUAGE C AS '\$libdir/fixed_decimal_memory'"
# all_fail TYPE NUMBER EXPRESSION: the expression of the variable n, which has this number.
all_fail() {
  found=$(sql 'SET search_path = memory' "DO \$\$
    DECLARE n $1 := $2; wanted text := $3; failed int := 0; found text;
    BEGIN
      FOR at IN 1 .. 1000 LOOP
        PERFORM fail_at(at);
        BEGIN
          found := $3;
          ASSERT found = wanted, found;
        EXCEPTION WHEN out_of_memory THEN
          failed := failed + 1;
          ASSERT SQLERRM = 'memory', SQLERRM;
        END;
        ASSERT held() = 0, held() || ' blocks are left';
        EXIT WHEN fail_at(0) = 0;
      END LOOP;
      ASSERT failed > 0, 'no allocation has failed';
      RAISE WARNING 'all failed';
    END \$\$")
  [[ $found == *'all failed'* ]]
  judge $? "each allocation fails in $3: $found"
}
all_fail text "'1.' || repeat('7', 40)" "fixdec(n, 'shift:1', 'round:-2:half-even:1', 'format:de')"
all_fail text "'1'" "fixdec(n $(printf ", 'shift:1'%.0s" {1..20}))"
all_fail numeric "repeat('7', 3000)" "fixdec(n, 'format:hi')"
all_fail numeric 12345678901234567890.5 "format_number('de', 'currency/EUR', n)"
all_fail text "'1.234,50$nbsp€'" "read_number('de', 'currency/EUR', n)"
all_fail numeric 12345678901234567890.25 "plural('one: i = 1 or n % 10 = 3..7; few: v = 2', n)"
# Of many failing calls in one session nothing is left.
found=$(sql "DO \$\$
  DECLARE failed int := 0;
  BEGIN
    FOR n IN 1 .. 100000 LOOP
      BEGIN
        PERFORM fixdec(n, 'shift:1', 'trimm' || n);
      EXCEPTION WHEN invalid_parameter_value THEN failed := failed + 1;
      END;
      PERFORM format_number('de', repeat('0', n % 7), n);
    END LOOP;
    ASSERT failed = 100000, failed;
    ASSERT (SELECT count(*) < 10 FROM pg_backend_memory_contexts WHERE name = 'fixed_decimal'), 'contexts are left';
  END \$\$" "SELECT 'none is left'")
[ "$found" = 'none is left' ]
judge $? "many failing calls: $found"
try 'DROP EXTENSION' sql 'DROP EXTENSION fixed_decimal CASCADE'
! grep -E 'PANIC|terminated by signal' "$room/server"
judge $? 'no process of the server has ended'
finish
