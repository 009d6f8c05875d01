/* Makes each allocation of SQLite, and of the library, fail in turn, alone and with all later ones: each statement has
 * its result, or an error of memory, and nothing leaks. Compile with -DSQLITE_CORE and examples/sqlite/fixdec.c, and
 * link with -lsqlite3 and as failing.h says. */
#include "failing.h"
#include <sqlite3.h>
#include <stdio.h>
#include <string.h>

int sqlite3_fixdec_init(sqlite3 *db, char **error, const struct sqlite3_api_routines *api);
static sqlite3_mem_methods heap;

static void *sqlite_malloc(int n) { return fails() ? NULL : heap.xMalloc(n); }
static void *sqlite_realloc(void *p, int n) { return fails() ? NULL : heap.xRealloc(p, n); }

static const struct { const char *sql, *result; } rows[] = {
    {"SELECT fixdec('1.234,5', 'read:de', 'shift:2', 'round:-1:half-even:1', 'format:en')", "123,450.0"},
    {"SELECT fixdec(1234.5), fixdec(12, 'concat:0.5'), fixdec(x'312e35', 'shift:1')", "1234.5|12.5|15"},
    {"SELECT fixdec('1', 'concat:0.' || printf('%.*c', 200, '7')) = '1.' || printf('%.*c', 200, '7')", "1"},
    {"SELECT length(fixdec(zeroblob(0) || printf('%.*c', 300, '7'), 'sign:minus'))", "301"},
    {"SELECT try_fixdec('x', 'shift:1') IS NULL, try_fixdec('1', 'shift:1')", "1|10"},
    {"SELECT try_fixdec(zeroblob(100)) IS NULL", "1"},
    {"SELECT format_number('de', 'currency/EUR', 1234.5)", "1.234,50\u00a0€"},
    {"SELECT format_number('de', 'minimumFractionDigits', 2, 'useGrouping', 'false', 1234.5)", "1234,50"},
    {"SELECT format_number('en', 'style', 'unit', 'unit', 'liter-per-kilometer', '-0.5')", "-0.5 L/km"},
    {"SELECT read_number('de', 'useGrouping', 'auto', '1.234,50'), read_number('en', 'currency/EUR', '€5.00')",
     "1234.50|5.00"},
    {"SELECT group_concat(format_number('de', 'currency/' || column1, column2), ' ') "
     "FROM (VALUES ('EUR', 1), ('EUR', 2), ('USD', 3), ('EUR', 4))",
     "1,00\u00a0€ 2,00\u00a0€ 3,00\u00a0$ 4,00\u00a0€"},
    {"SELECT group_concat(format_number('en', 'style', 'currency', 'currency', column1, column2), ' ') || "
     "format_number('en', printf('%.*c', 300, ' '), 5) FROM (VALUES ('EUR', 1), ('EUR', 2), ('JPY', 3))",
     "€1.00 €2.00 ¥35"},
    {"SELECT count(try_read_number('de', 'currency/' || column1, '1,50' || char(160) || '€')) "
     "FROM (VALUES ('EUR'), ('USD'), ('EUR'))", "2"},
    {"SELECT plural('en:ordinal', 22), plural('one: i = 1', '1')", "two|one"},
    {"SELECT group_concat(x, ' ') FROM (SELECT column1 AS x FROM (VALUES ('10'), ('b'), ('9.50'), ('-1e2'), "
     "('12345678901234567890.5'), ('12345678901234567890.25'), ('a')) ORDER BY column1 COLLATE decimal_compare)",
     "-1e2 9.50 10 12345678901234567890.25 12345678901234567890.5 a b"},
    {"SELECT '12345678901234567890.50' = '12345678901234567890.5' COLLATE decimal_compare", "1"}};
enum { ROWS = sizeof rows / sizeof *rows };

/* Opens a database, in this encoding, and adds the functions to it. */
static int open_database(sqlite3 **db, const char *encoding) {
    int status = sqlite3_open(":memory:", db);
    if (status == SQLITE_OK) status = sqlite3_exec(*db, encoding, NULL, NULL, NULL);
    return status == SQLITE_OK ? sqlite3_fixdec_init(*db, NULL, NULL) : status;
}

/* Makes a statement that has one row. Its status is that at its end; its result is its columns, with | between them. */
static int query(sqlite3 *db, const char *sql, char *result, size_t size) {
    sqlite3_stmt *statement;
    int status = sqlite3_prepare_v2(db, sql, -1, &statement, NULL);
    if (status != SQLITE_OK) return status;
    if ((status = sqlite3_step(statement)) == SQLITE_ROW) {
        long at = fail_at;
        fail_at = 0;
        for (int i = 0; i < sqlite3_column_count(statement); i++) {
            const char *text = (const char *)sqlite3_column_text(statement, i);
            snprintf(result + strlen(result), size - strlen(result), "%s%s", i ? "|" : "", text ? text : "");
        }
        fail_at = at;
        status = sqlite3_step(statement);
    }
    sqlite3_finalize(statement);
    return status;
}

/* Makes one statement with the allocation number `at` failing. 1: it has its result; 0: out of memory; -1: neither, or
 * memory leaks. */
static int try_row(const char *encoding, int row, long at) {
    char result[500] = "";
    sqlite3 *db = NULL;
    count = live = 0, fail_at = at;
    int status = open_database(&db, encoding);
    if (status == SQLITE_OK) status = query(db, rows[row].sql, result, sizeof result);
    fail_at = 0;
    if (sqlite3_close(db) != SQLITE_OK || sqlite3_memory_used() != 0 || live != 0) {
        fprintf(stderr, "%s\nallocation %ld: %lld bytes of SQLite and %ld blocks leak\n", rows[row].sql, at,
                (long long)sqlite3_memory_used(), live);
        return -1;
    }
    if (status == SQLITE_NOMEM || status == SQLITE_INTERRUPT) return 0;
    if (status == SQLITE_DONE && strcmp(result, rows[row].result) == 0) return 1;
    fprintf(stderr, "%s\nallocation %ld: status %d, %s\n", rows[row].sql, at, status, result);
    return -1;
}

/* Lets each allocation of a statement fail; the last one that could is that after which none fails. */
static void try_allocations(const char *encoding, int row, long *tried, long *wrong) {
    long at = 0, most;
    if (try_row(encoding, row, 0) != 1) ++*wrong;
    most = count;
    while (at++ < most) {
        if (try_row(encoding, row, at) < 0) ++*wrong;
        ++*tried;
    }
}

int main(void) {
    static const char *const encodings[] = {"PRAGMA encoding='UTF-8'", "PRAGMA encoding='UTF-16le'"};
    long tried = 0, wrong = 0;
    sqlite3_mem_methods failing;
    sqlite3_config(SQLITE_CONFIG_GETMALLOC, &heap);
    failing = heap;
    failing.xMalloc = sqlite_malloc, failing.xRealloc = sqlite_realloc;
    sqlite3_config(SQLITE_CONFIG_MALLOC, &failing);
    sqlite3_config(SQLITE_CONFIG_LOOKASIDE, 0, 0);
    for (and_later = 0; and_later < 2; and_later++)
        for (int encoding = 0; encoding < 2; encoding++)
            for (int row = 0; row < ROWS; row++) try_allocations(encodings[encoding], row, &tried, &wrong);
    printf("%ld allocations failed, %ld wrong\n", tried, wrong);
    return wrong != 0;
}
