/* Decimals in PostgreSQL: the functions of fixed_decimal--1.0.sql over the library. NULL in, NULL out, but a NULL among
 * the words is an error.
 *
 * What the library makes of the words, or of a locale and a skeleton or options, is kept for the statement (fn_extra)
 * until they change. An error of the server jumps out of a function: the library keeps nothing between its calls that
 * it could lose. Each text is passed to the library in UTF-8, whatever the encoding of the database is. */
#include "postgres.h"

#include "fmgr.h"
#include "catalog/pg_type.h"
#include "mb/pg_wchar.h"
#include "utils/array.h"
#include "utils/builtins.h"
#include "utils/memutils.h"
#include "utils/numeric.h"
#if PG_VERSION_NUM >= 160000
#include "varatt.h"
#endif

#include "../options.h"

PG_MODULE_MAGIC;

/* ---- Errors. */

static int
code_of(uint32_t status)
{
    switch (status) {
    case FD_SYNTAX:
        return ERRCODE_INVALID_TEXT_REPRESENTATION;
    case FD_LIMIT:
    case FD_OVERFLOW:
        return ERRCODE_NUMERIC_VALUE_OUT_OF_RANGE;
    case FD_MEMORY:
        return ERRCODE_OUT_OF_MEMORY;
    default:
        return ERRCODE_INVALID_PARAMETER_VALUE;
    }
}

/* Reports a status after this number of calls. */
pg_attribute_noreturn() static void
fail(uint32_t status, size_t at, size_t calls)
{
    char line[80];
    fd_result text = fd_status_text(status, at, calls, (uint8_t *)line, sizeof line);

    ereport(ERROR, errcode(code_of(status)), errmsg_internal("%.*s", (int)text.count, line));
}

/* Reports word `index`, which is not one of these functions, or not in its place. */
pg_attribute_noreturn() static void
fail_word(uint32_t status, int index, const char *hint)
{
    ereport(ERROR, errcode(code_of(status)),
            errmsg_internal(status == FD_UNKNOWN_CALL ? "no such call" : "unknown locale"),
            errdetail("It is word %d.", index + 1), hint ? errhint("%s", hint) : 0);
}

/* ---- What is kept. */

enum kind { WORDS_OF_TEXT, WORDS_OF_NUMERIC, FORMAT, FORMAT_BY_OPTIONS, READ, READ_BY_OPTIONS, PLURAL };

/* How a function converts numbers, made of arguments that name it. */
typedef struct conversion {
    enum kind kind;
    struct varlena *names[2];      /* the arguments */
    fd_call *calls;                /* words: the calls and the forms */
    size_t count;
    fd_forms forms;
    uint8_t *texts;                /* the words, one after another */
    size_t used;
    fd_formatter formatter;        /* a locale, and a skeleton or options */
    bytes rules;                   /* the plural rules, and their number: 0 for a text of rules */
    uint64_t rules_number;
} conversion;

static bytes
in_utf8(const char *start, int count)
{
    char *text = pg_server_to_any(start, count, PG_UTF8);

    return (bytes){(const uint8_t *)text, text == start ? (size_t)count : strlen(text)};
}

static bytes
bytes_of(const struct varlena *text)
{
    return in_utf8(VARDATA_ANY(text), VARSIZE_ANY_EXHDR(text));
}

/* Adds a word: `read:..` is the first one, and `format:..` the last one. */
static void
add_word(conversion *it, bytes text, int index, int words)
{
    fd_word word = fd_parse_word(BYTES(text));

    if (word.status != FD_OK)
        fail_word(word.status, index, NULL);
    if ((word.kind == FD_READ_WORD && index > 0) || (word.kind == FD_FORMAT_WORD && index < words - 1))
        fail_word(FD_UNKNOWN_CALL, index, "A read: is the first word, and a format: is the last one.");
    if (word.kind == FD_READ_WORD && it->kind == WORDS_OF_NUMERIC)
        fail_word(FD_UNKNOWN_CALL, index, "A read: is for a text, and the number is a numeric.");
    memcpy(it->texts + it->used, text.start, text.count);
    word.call.text_start += it->used, word.form.start += it->used, word.form.skeleton_start += it->used;
    it->used += text.count;
    if (word.kind == FD_READ_WORD)
        it->forms.read = word.form;
    else if (word.kind == FD_FORMAT_WORD)
        it->forms.format = word.form;
    else
        it->calls[it->count++] = word.call;
}

/* The texts of an array of words. */
static bytes *
texts_of(struct varlena *array, int *count)
{
    Datum *words;
    bool *nulls;
    bytes *texts;

    deconstruct_array((ArrayType *)array, TEXTOID, -1, false, TYPALIGN_INT, &words, &nulls, count);
    texts = palloc(*count * sizeof *texts);
    for (int i = 0; i < *count; i++) {
        if (nulls[i])
            ereport(ERROR, errcode(ERRCODE_NULL_VALUE_NOT_ALLOWED), errmsg("a word is NULL"),
                    errdetail("It is word %d.", i + 1));
        texts[i] = bytes_of((struct varlena *)DatumGetPointer(words[i]));
    }
    return texts;
}

static void
make_words(conversion *it)
{
    int count;
    bytes *texts = texts_of(it->names[0], &count);
    size_t size = 0;

    for (int i = 0; i < count; i++)
        size += texts[i].count;
    it->calls = palloc(count * sizeof *it->calls);
    it->texts = palloc(size);
    for (int i = 0; i < count; i++)
        add_word(it, texts[i], i, count);
}

/* ---- Options. */

/* Parses names of options, each with its value after it. */
static fd_number_options
parse_options(struct varlena *array)
{
    int count;
    bytes *texts = texts_of(array, &count);
    named o = {FD_NUMBER_OPTIONS, 0};

    if (count % 2)
        ereport(ERROR, errcode(ERRCODE_INVALID_PARAMETER_VALUE), errmsg("names of options with values"));
    for (int i = 0; i < count; i += 2) {
        if (set_option(&o, texts[i], texts[i + 1]))
            continue;
        if (is(texts[i], "unit", 4))
            fail(FD_UNKNOWN_UNIT, 0, 0);
        ereport(ERROR, errcode(ERRCODE_INVALID_PARAMETER_VALUE), errmsg("no such option"),
                errdetail("It is option %d.", i / 2 + 1));
    }
    return number_of(o);
}

static fd_made
make_formatter(const conversion *it)
{
    bytes locale = bytes_of(it->names[0]), skeleton;
    fd_number_options number;

    if (it->kind == FORMAT_BY_OPTIONS || it->kind == READ_BY_OPTIONS) {
        number = parse_options(it->names[1]);
        return fd_formatter_by_options(BYTES(locale), &number);
    }
    skeleton = bytes_of(it->names[1]);
    return fd_formatter_by_skeleton(BYTES(locale), BYTES(skeleton));
}

/* ---- Conversions. */

static void
make(conversion *it)
{
    if (it->kind == WORDS_OF_TEXT || it->kind == WORDS_OF_NUMERIC)
        make_words(it);
    else if (it->kind == PLURAL) {
        fd_unsigned number;

        it->rules = bytes_of(it->names[0]);
        number = fd_rules(BYTES(it->rules));
        if (number.status != FD_OK)
            fail(number.status, number.at, 0);
        it->rules_number = number.value;
    } else {
        fd_made made = make_formatter(it);

        if (made.status != FD_OK)
            fail(made.status, made.at, 0);
        it->formatter = made.formatter;
    }
}

static bool
is_same(const struct varlena *one, const struct varlena *other)
{
    return one == other
           || (one && other && VARSIZE(one) == VARSIZE(other) && memcmp(one, other, VARSIZE(one)) == 0);
}

static struct varlena *
copy_of(const struct varlena *name)
{
    return name ? memcpy(palloc(VARSIZE(name)), name, VARSIZE(name)) : NULL;
}

/* Returns the conversion by one or two arguments from `first` on, as it is kept or made. */
static const conversion *
kept(FunctionCallInfo fcinfo, enum kind kind, int first, int count)
{
    conversion *it = fcinfo->flinfo->fn_extra;
    struct varlena *names[2] = {PG_GETARG_VARLENA_P(first), count > 1 ? PG_GETARG_VARLENA_P(first + 1) : NULL};
    MemoryContext context, outer;

    if (it && is_same(it->names[0], names[0]) && is_same(it->names[1], names[1]))
        return it;
    if (it) {
        fcinfo->flinfo->fn_extra = NULL;
        MemoryContextDelete(GetMemoryChunkContext(it));
    }
    /* An error while it is made deletes it with the memory of this row. */
    context = AllocSetContextCreate(CurrentMemoryContext, "fixed_decimal", ALLOCSET_SMALL_SIZES);
    outer = MemoryContextSwitchTo(context);
    it = palloc0(sizeof *it);
    it->kind = kind;
    it->names[0] = copy_of(names[0]);
    it->names[1] = copy_of(names[1]);
    make(it);
    MemoryContextSwitchTo(outer);
    MemoryContextSetParent(context, fcinfo->flinfo->fn_mcxt);
    return fcinfo->flinfo->fn_extra = it;
}

/* ---- Functions. */

static fd_result
run(const conversion *it, bytes text, uint8_t *out, size_t room)
{
    switch (it->kind) {
    case FORMAT:
    case FORMAT_BY_OPTIONS:
        return fd_format(&it->formatter, BYTES(text), out, room);
    case READ:
    case READ_BY_OPTIONS:
        return fd_read(&it->formatter, BYTES(text), 0, out, room);
    default:
        return fd_convert(BYTES(text), &it->forms, it->calls, it->count, it->texts, it->used, out, room);
    }
}

/* Converts a text: the result is in UTF-8, and a zero byte follows it. */
static char *
convert(const conversion *it, bytes text)
{
    size_t room = 127;

    for (;;) {
        uint8_t *out = palloc(room + 1);
        fd_result answer = run(it, text, out, room);

        if (answer.status == FD_OK) {
            out[answer.count] = 0;
            return (char *)out;
        }
        pfree(out);
        if (answer.status != FD_BUFFER_TOO_SMALL)
            fail(answer.status, answer.at, it->count);
        room = answer.count;
    }
}

/* Converts a text to one in the encoding of the database. */
static text *
converted(const conversion *it, bytes number)
{
    char *found = convert(it, number);

    return cstring_to_text(pg_any_to_server(found, strlen(found), PG_UTF8));
}

/* The text of a numeric: ASCII in each encoding. */
static bytes
digits_of(Datum numeric)
{
    const char *digits = DatumGetCString(DirectFunctionCall1(numeric_out, numeric));

    return (bytes){(const uint8_t *)digits, strlen(digits)};
}

PG_FUNCTION_INFO_V1(fixdec_text);
Datum
fixdec_text(PG_FUNCTION_ARGS)
{
    PG_RETURN_TEXT_P(converted(kept(fcinfo, WORDS_OF_TEXT, 1, 1), bytes_of(PG_GETARG_VARLENA_PP(0))));
}

PG_FUNCTION_INFO_V1(fixdec_numeric);
Datum
fixdec_numeric(PG_FUNCTION_ARGS)
{
    PG_RETURN_TEXT_P(converted(kept(fcinfo, WORDS_OF_NUMERIC, 1, 1), digits_of(PG_GETARG_DATUM(0))));
}

PG_FUNCTION_INFO_V1(format_number);
Datum
format_number(PG_FUNCTION_ARGS)
{
    PG_RETURN_TEXT_P(converted(kept(fcinfo, FORMAT, 0, 2), digits_of(PG_GETARG_DATUM(2))));
}

PG_FUNCTION_INFO_V1(format_number_by_options);
Datum
format_number_by_options(PG_FUNCTION_ARGS)
{
    PG_RETURN_TEXT_P(converted(kept(fcinfo, FORMAT_BY_OPTIONS, 0, 2), digits_of(PG_GETARG_DATUM(2))));
}

/* Reads a text. numeric_in reports a number with more fraction digits than a numeric has. */
static Datum
read_by(const conversion *it, bytes text)
{
    return DirectFunctionCall3(numeric_in, CStringGetDatum(convert(it, text)), ObjectIdGetDatum(InvalidOid),
                               Int32GetDatum(-1));
}

PG_FUNCTION_INFO_V1(read_number);
Datum
read_number(PG_FUNCTION_ARGS)
{
    return read_by(kept(fcinfo, READ, 0, 2), bytes_of(PG_GETARG_VARLENA_PP(2)));
}

PG_FUNCTION_INFO_V1(read_number_by_options);
Datum
read_number_by_options(PG_FUNCTION_ARGS)
{
    return read_by(kept(fcinfo, READ_BY_OPTIONS, 0, 2), bytes_of(PG_GETARG_VARLENA_PP(2)));
}

PG_FUNCTION_INFO_V1(plural);
Datum
plural(PG_FUNCTION_ARGS)
{
    static const char *const names[] = {"zero", "one", "two", "few", "many", "other"};
    const conversion *it = kept(fcinfo, PLURAL, 0, 1);
    bytes number = digits_of(PG_GETARG_DATUM(1));
    fd_number answer = it->rules_number ? fd_category_of(it->rules_number, BYTES(number))
                                        : fd_category(BYTES(it->rules), BYTES(number));

    if (answer.status != FD_OK)
        fail(answer.status, answer.at, 0);
    PG_RETURN_TEXT_P(cstring_to_text(names[answer.value]));
}
