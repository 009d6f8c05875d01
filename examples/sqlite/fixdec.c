/* Decimals in SQLite: fixdec(text, word, ..) with the words of the programs; format_number and read_number with
 * (locale, skeleton, number), or with (locale, name, value, .., number) by options of Intl.NumberFormat; plural(locale
 * or rules, number); and the collation decimal_compare. NULL in, NULL out; an error is an SQL error. try_fixdec and
 * try_read_number are NULL where only this text is wrong, or a call cannot be made on it.
 *   gcc -shared -fPIC -I ../../c fixdec.c ../../c/out/libfixed_decimal.a -o fixdec.so
 *   SELECT fixdec('1234.565', 'round:-2:half-even:1', 'format:de');  -- 1.234,56
 *   SELECT format_number('de', 'style', 'currency', 'currency', 'EUR', 1234.5);  -- 1.234,50 € */
#include <fixed_decimal.h>
#include <sqlite3ext.h>
#include "../options.h"
SQLITE_EXTENSION_INIT1

/* Makes an SQL error, and returns 0. */
static int fail(sqlite3_context *context, const char *line) {
    sqlite3_result_error(context, line, -1);
    return 0;
}

static int is_any_null(int count, sqlite3_value **values) {
    for (int i = 0; i < count; i++)
        if (sqlite3_value_type(values[i]) == SQLITE_NULL) return 1;
    return 0;
}

/* Gets the bytes of a blob, or the text of another value in UTF-8, and then their number. An SQL error: 0. */
static int get(sqlite3_context *context, sqlite3_value *value, bytes *to) {
    int is_blob = sqlite3_value_type(value) == SQLITE_BLOB;
    const void *start = is_blob ? sqlite3_value_blob(value) : (const void *)sqlite3_value_text(value);
    size_t count = (size_t)sqlite3_value_bytes(value);
    *to = start ? (bytes){start, count} : (bytes){FD_NONE(uint8_t), 0};
    if (start || (is_blob && count == 0)) return 1;
    sqlite3_result_error_nomem(context);
    return 0;
}

/* Makes the SQL error of a status after this number of calls, and returns 0. */
static int fail_status(sqlite3_context *context, uint32_t status, size_t at, size_t calls) {
    uint8_t line[80];
    fd_result answer = fd_status_text(status, at, calls, line, sizeof line);
    if (status == FD_MEMORY) sqlite3_result_error_nomem(context);
    else sqlite3_result_error(context, (char *)line, (int)answer.count);
    return 0;
}

/* ---- Words. */

/* The calls and the forms that words name, and the words, one after another. */
typedef struct { fd_call *calls; size_t count; fd_forms forms; uint8_t *texts; size_t used; } job;

/* Adds a word: `read:..` is the first one, and `format:..` the last one. An SQL error: 0. */
static int add_word(sqlite3_context *context, job *j, bytes text, int is_first, int is_last) {
    fd_word word = fd_parse_word(BYTES(text));
    if (word.status == FD_UNKNOWN_LOCALE) return fail_status(context, word.status, 0, 0);
    if (word.status != FD_OK) return fail(context, "no such call");
    if ((word.kind == FD_READ_WORD && !is_first) || (word.kind == FD_FORMAT_WORD && !is_last))
        return fail(context, "no such call");
    if (text.count) memcpy(j->texts + j->used, text.start, text.count);
    word.call.text_start += j->used, word.form.start += j->used, word.form.skeleton_start += j->used;
    j->used += text.count;
    if (word.kind == FD_READ_WORD) j->forms.read = word.form;
    else if (word.kind == FD_FORMAT_WORD) j->forms.format = word.form;
    else j->calls[j->count++] = word.call;
    return 1;
}

/* Parses words of the programs, into memory that the caller frees. An SQL error: 0. */
static int parse_words(sqlite3_context *context, job *j, int count, sqlite3_value **values) {
    bytes word;
    size_t size = (size_t)count * sizeof *j->calls;
    for (int i = 0; i < count; i++, size += word.count)
        if (!get(context, values[i], &word)) return 0;
    j->calls = sqlite3_malloc64(size + 1); /* not 0 bytes, for which it returns NULL */
    if (!j->calls) return sqlite3_result_error_nomem(context), 0;
    j->texts = (uint8_t *)(j->calls + count);
    for (int i = 0; i < count; i++)
        if (!get(context, values[i], &word) || !add_word(context, j, word, i == 0, i == count - 1)) return 0;
    return 1;
}

/* ---- Options. */

/* Parses names of options, each with its value after it. An SQL error: 0. */
static int parse_options(sqlite3_context *context, fd_number_options *number, int count, sqlite3_value **values) {
    named o = {*number, 0};
    bytes name, value;
    if (count < 0 || count % 2) return fail(context, "a locale, names with values, and a number");
    for (int i = 0; i < count; i += 2) {
        if (!get(context, values[i], &name) || !get(context, values[i + 1], &value)) return 0;
        if (sqlite3_value_type(values[i + 1]) == SQLITE_BLOB || !set_option(&o, name, value))
            return is(name, "unit", 4) ? fail_status(context, FD_UNKNOWN_UNIT, 0, 0) : fail(context, "no such option");
    }
    return *number = number_of(o), 1;
}

/* ---- Formatters. */

/* A formatter, and the arguments before the number that it was made of, one after another: twice the number of bytes of
 * each, and 1 more if it is a BLOB; then its bytes. */
typedef struct { fd_formatter formatter; size_t count; uint8_t arguments[]; } kept;

static uint64_t head_of(bytes argument, sqlite3_value *value) {
    return 2 * (uint64_t)argument.count + (sqlite3_value_type(value) == SQLITE_BLOB);
}

/* Compares arguments with those of a kept formatter: 1 if they are the same, 0 if not, -1 with an SQL error. */
static int is_made_of(sqlite3_context *context, const kept *k, int count, sqlite3_value **values) {
    size_t at = 0;
    for (int i = 0; i < count; i++) {
        bytes argument;
        if (!get(context, values[i], &argument)) return -1;
        uint64_t head = head_of(argument, values[i]);
        if (k->count - at < sizeof head || memcmp(k->arguments + at, &head, sizeof head) != 0) return 0;
        at += sizeof head;
        if (memcmp(k->arguments + at, argument.start, argument.count) != 0) return 0;
        at += argument.count;
    }
    return at == k->count;
}

/* Keeps a formatter for the next row. If memory is out, or SQLite drops it, the next row makes another one. */
static void keep(sqlite3_context *context, const fd_formatter *formatter, int count, sqlite3_value **values) {
    bytes argument;
    size_t size = 0;
    for (int i = 0; i < count; i++) {
        if (!get(context, values[i], &argument)) return;
        size += sizeof(uint64_t) + argument.count;
    }
    kept *k = sqlite3_malloc64(sizeof *k + size);
    if (!k) return;
    k->formatter = *formatter, k->count = 0;
    for (int i = 0; i < count && get(context, values[i], &argument); i++) {
        uint64_t head = head_of(argument, values[i]);
        memcpy(k->arguments + k->count, &head, sizeof head);
        if (argument.count) memcpy(k->arguments + k->count + sizeof head, argument.start, argument.count);
        k->count += sizeof head + argument.count;
    }
    sqlite3_set_auxdata(context, 0, k, sqlite3_free);
}

/* Makes a formatter of a locale and a skeleton, or of a locale and options. An SQL error: 0. */
static int make_formatter(sqlite3_context *context, int has_skeleton, int count, sqlite3_value **values,
                          fd_formatter *formatter) {
    fd_number_options options = FD_NUMBER_OPTIONS;
    bytes locale, skeleton;
    fd_made made;
    if (has_skeleton) {
        if (!get(context, values[0], &locale) || !get(context, values[1], &skeleton)) return 0;
        made = fd_formatter_by_skeleton(BYTES(locale), BYTES(skeleton));
    } else {
        if (!parse_options(context, &options, count - 1, values + 1) || !get(context, values[0], &locale)) return 0;
        made = fd_formatter_by_options(BYTES(locale), &options);
    }
    *formatter = made.formatter;
    return made.status == FD_OK || fail_status(context, made.status, made.at, 0);
}

/* Gets the formatter of the arguments before the number: that of the row before, or another one. An SQL error: 0. */
static int get_formatter(sqlite3_context *context, int has_skeleton, int count, sqlite3_value **values,
                         fd_formatter *formatter) {
    const kept *k = sqlite3_get_auxdata(context, 0);
    int is_kept = k ? is_made_of(context, k, count, values) : 0;
    if (is_kept > 0) *formatter = k->formatter;
    if (is_kept) return is_kept > 0;
    if (!make_formatter(context, has_skeleton, count, values, formatter)) return 0;
    keep(context, formatter, count, values);
    return 1;
}

/* ---- Functions. */

/* A function that writes a text: how it converts, and whether it is NULL where only this text is wrong. */
typedef struct {
    const char *name;
    int count;
    enum { WORDS, FORMAT, READ } kind;
    int has_skeleton, tries;
} function;
static const function functions[] = {
    {"fixdec", -1, WORDS, 0, 0}, {"try_fixdec", -1, WORDS, 0, 1},
    {"format_number", 3, FORMAT, 1, 0}, {"format_number", -1, FORMAT, 0, 0},
    {"read_number", 3, READ, 1, 0}, {"read_number", -1, READ, 0, 0},
    {"try_read_number", 3, READ, 1, 1}, {"try_read_number", -1, READ, 0, 1}};

/* What a function converts. */
typedef struct { bytes text; job j; fd_formatter formatter; } input;

/* Gets the arguments. An SQL error: 0. */
static int get_input(sqlite3_context *context, const function *called, input *in, int count, sqlite3_value **values) {
    if (called->kind == WORDS)
        return get(context, values[0], &in->text) && parse_words(context, &in->j, count - 1, values + 1);
    if (count < 2) return fail(context, "a locale, names with values, and a number");
    return get_formatter(context, called->has_skeleton, count - 1, values, &in->formatter)
           && get(context, values[count - 1], &in->text);
}

static fd_result run(int kind, const input *in, uint8_t *out, size_t room) {
    switch (kind) {
    case WORDS:
        return fd_convert(BYTES(in->text), &in->j.forms, in->j.calls, in->j.count, in->j.texts, in->j.used, out, room);
    case FORMAT:
        return fd_format(&in->formatter, BYTES(in->text), out, room);
    default:
        return fd_read(&in->formatter, BYTES(in->text), 0, out, room);
    }
}

/* Whether another text could have no error: neither a word nor an option is wrong. */
static int is_of_text(uint32_t status) {
    return status == FD_SYNTAX || status == FD_LIMIT || status == FD_OVERLAP || status == FD_OVERFLOW;
}

static void convert(sqlite3_context *context, int count, sqlite3_value **values) {
    const function *called = sqlite3_user_data(context);
    int kind = called->kind;
    input in = {.text = {NULL, 0}};
    uint8_t buffer[128], *out = buffer;
    if ((kind == WORDS && count == 0) || is_any_null(count, values)) return;
    if (get_input(context, called, &in, count, values)) {
        fd_result answer = run(kind, &in, buffer, sizeof buffer);
        if (answer.status == FD_BUFFER_TOO_SMALL && (out = sqlite3_malloc64(answer.count)))
            answer = run(kind, &in, out, answer.count);
        if (!out) sqlite3_result_error_nomem(context);
        else if (answer.status == FD_OK)
            sqlite3_result_text64(context, (char *)out, answer.count, SQLITE_TRANSIENT, SQLITE_UTF8);
        else if (answer.status == FD_UNREADABLE_FORMAT && kind == READ && !called->has_skeleton)
            fail(context, "no reader of such numbers");
        else if (!called->tries || !is_of_text(answer.status))
            fail_status(context, answer.status, answer.at, in.j.count);
    }
    if (out != buffer) sqlite3_free(out);
    sqlite3_free(in.j.calls);
}

static void plural(sqlite3_context *context, int count, sqlite3_value **values) {
    static const char *const names[] = {"zero", "one", "two", "few", "many", "other"};
    bytes rules, text;
    if (is_any_null(count, values) || !get(context, values[0], &rules) || !get(context, values[1], &text)) return;
    fd_unsigned number = fd_rules(BYTES(rules)); /* an unknown locale has the number 0: fd_category_of says so too */
    fd_number answer = number.value || number.status ? fd_category_of(number.value, BYTES(text))
                                                     : fd_category(BYTES(rules), BYTES(text));
    if (answer.status == FD_OK) sqlite3_result_text(context, names[answer.value], -1, SQLITE_STATIC);
    else fail_status(context, answer.status, answer.at, 0);
}

/* By value; texts that are no decimals are after all decimals, by bytes. Out of memory, it interrupts the statement: a
 * collation has no errors. */
static int compare(void *db, int left_count, const void *left, int right_count, const void *right) {
    bytes a = {left_count ? left : FD_NONE(uint8_t), (size_t)left_count};
    bytes b = {right_count ? right : FD_NONE(uint8_t), (size_t)right_count};
    fd_number order = fd_compare(BYTES(a), BYTES(b));
    if (order.status == FD_OK) return (int)order.value;
    uint32_t left_status = fd_sign(BYTES(a)).status, right_status = fd_sign(BYTES(b)).status;
    if (order.status == FD_MEMORY || left_status == FD_MEMORY || right_status == FD_MEMORY)
        return sqlite3_interrupt(db), 0;
    int apart = !right_status - !left_status;
    int difference = memcmp(a.start, b.start, a.count < b.count ? a.count : b.count);
    return apart ? apart : difference ? difference : left_count - right_count;
}

int sqlite3_fixdec_init(sqlite3 *db, char **unused, const sqlite3_api_routines *api) {
    SQLITE_EXTENSION_INIT2(api);
    (void)unused;
    int flags = SQLITE_UTF8 | SQLITE_DETERMINISTIC | SQLITE_INNOCUOUS;
    int status = sqlite3_create_function(db, "plural", 2, flags, NULL, plural, 0, 0);
    for (size_t i = 0; status == SQLITE_OK && i < sizeof functions / sizeof *functions; i++)
        status = sqlite3_create_function(db, functions[i].name, functions[i].count, flags, (void *)&functions[i],
                                         convert, 0, 0);
    return status ? status : sqlite3_create_collation(db, "decimal_compare", SQLITE_UTF8, db, compare);
}
