/* The classes Decimal and NumberFormat, and columns, over fixed_decimal.h: an extension module of CPython. */
#define PY_SSIZE_T_CLEAN
#include <Python.h>
#include <pthread.h>
#include <stdlib.h>
#include <string.h>
#include <unistd.h>
#include <fixed_decimal.h>

/* With Py_LIMITED_API one extension is for several versions of Python. It has functions instead of these macros. */
#ifdef Py_LIMITED_API
#define PyList_GET_ITEM PyList_GetItem
#define PyList_GET_SIZE PyList_Size
#define PyList_SET_ITEM PyList_SetItem
#define PyMem_RawRealloc realloc
#define PyMem_RawFree free
#endif

/* An immutable decimal: its text. Its key is read when it is first compared; not each number has one. */
typedef struct {
    PyObject_VAR_HEAD
    fd_key key;
    enum { UNREAD, HAS_KEY, HAS_NONE } state;
    char text[];
} Decimal;

/* How a locale writes numbers: immutable. It has a skeleton, or else the bytes of its options. They and the locale are
 * of str and bytes exactly, so it is in no cycle, and releasing it runs no code of others. */
typedef struct {
    PyObject_HEAD
    fd_formatter formatter;
    PyObject *locale, *skeleton, *options;
} NumberFormat;

static PyTypeObject *decimal_type, *number_format_type;
static PyObject *decimal_error;

#define IS_DECIMAL(object) Py_IS_TYPE(object, decimal_type)
#define IS_NUMBER_FORMAT(object) Py_IS_TYPE(object, number_format_type)
#define BYTES(decimal) ((const uint8_t *)(decimal)->text), ((size_t)Py_SIZE(decimal))
#define ROOM 128
/* The number of bits of 10^32768: an int of more has more digits than a Decimal. */
#define MOST_BITS 108853

static const char *const reasons[] = {"", "syntax", "limit", "memory", "operand syntax", "operand limit", "overlap",
    "overflow", "", "unknown call", "unknown locale", "unknown option", "not whole", "out of range", "rules syntax",
    "rules limit", "skeleton syntax", "skeleton unsupported", "unknown numbering system", "unreadable format",
    "digit options", "no skeleton", "formatter", "", "unknown unit"};
static const char *const modes[] = {"ceil", "floor", "expand", "trunc", "half-ceil", "half-floor", "half-expand",
    "half-trunc", "half-even", NULL};
static const char *const displays[] = {"auto", "never", "always", "except-zero", "negative", NULL};
static const char *const signs[] = {"none", "minus", "plus", NULL};
static const char *const groupings[] = {"auto", "never", "always", "min2", NULL};
static const char *const categories[] = {"zero", "one", "two", "few", "many", "other", NULL};

/* Raises DecimalError(reason, at, text) with the text that fails, or None; or MemoryError. */
static PyObject *fail_object(uint32_t status, size_t at, PyObject *text) {
    if (status == FD_MEMORY) return PyErr_NoMemory();
    PyObject *arguments = Py_BuildValue("snO", reasons[status], (Py_ssize_t)at, text);
    if (arguments) PyErr_SetObject(decimal_error, arguments);
    Py_XDECREF(arguments);
    return NULL;
}

/* The same where no text fails. */
static PyObject *fail(uint32_t status, size_t at) {
    return fail_object(status, at, Py_None);
}

/* The same with the text in UTF-8, of which no more is decoded than the error shows: its first 40 bytes, and one
 * character. */
static PyObject *fail_text(uint32_t status, size_t at, const uint8_t *bytes, size_t count) {
    PyObject *text = PyUnicode_DecodeUTF8((const char *)bytes, count < 44 ? (Py_ssize_t)count : 44, "ignore");
    if (text) fail_object(status, at, text);
    Py_XDECREF(text);
    return NULL;
}

/* The same with a str, which may be of a subclass. */
static PyObject *fail_str(uint32_t status, size_t at, PyObject *text) {
    PyObject *start = PyUnicode_Substring(text, 0, 41);
    if (start) fail_object(status, at, start);
    Py_XDECREF(start);
    return NULL;
}

/* Raises TypeError: what is expected, and the type of the value. */
static void *fail_kind(const char *expected, PyObject *value, const char *advice) {
#ifdef Py_LIMITED_API
    PyObject *type = (PyObject *)Py_TYPE(value), *name = PyObject_GetAttrString(type, "__qualname__");
    PyObject *module = name ? PyObject_GetAttrString(type, "__module__") : NULL;
    if (module && PyUnicode_Check(module) && PyUnicode_CompareWithASCIIString(module, "builtins"))
        PyErr_Format(PyExc_TypeError, "%s, not %U.%S%s", expected, module, name, advice);
    else if (module)
        PyErr_Format(PyExc_TypeError, "%s, not %S%s", expected, name, advice);
    Py_XDECREF(module);
    Py_XDECREF(name);
    return NULL;
#else
    return PyErr_Format(PyExc_TypeError, "%s, not %.100s%s", expected, Py_TYPE(value)->tp_name, advice);
#endif
}

/* Raises TypeError for a value that is no str. */
static void *fail_type(const char *what, PyObject *value) {
    char expected[64];
    snprintf(expected, sizeof expected, "%s is a str", what);
    return fail_kind(expected, value, "");
}

/* The str of ASCII bytes. */
static inline PyObject *ascii_str(const char *bytes, Py_ssize_t count) {
#ifdef Py_LIMITED_API
    return PyUnicode_DecodeASCII(bytes, count, NULL);
#else
    PyObject *made = PyUnicode_New(count, 127);
    if (made) memcpy(PyUnicode_1BYTE_DATA(made), bytes, (size_t)count);
    return made;
#endif
}

/* The str of bytes that are UTF-8, as those of each text that the library writes. Short ones are decoded here, in half
 * the time that Python takes if they are not ASCII. */
static PyObject *utf8_str(const uint8_t *bytes, size_t count) {
#ifndef Py_LIMITED_API
    if (count <= ROOM) {
        Py_ssize_t length = 0;
        uint8_t highest = 0;
        for (size_t at = 0; at < count; at++) {
            length += (bytes[at] & 0xC0) != 0x80;
            if (bytes[at] > highest) highest = bytes[at];
        }
        /* The lead byte of U+0100 is C4, and that of U+10000 is F0. */
        PyObject *made = PyUnicode_New(
            length, highest < 0x80 ? 0x7F : highest < 0xC4 ? 0xFF : highest < 0xF0 ? 0xFFFF : 0x10FFFF);
        for (Py_ssize_t to = 0; made && to < length; to++) {
            Py_UCS4 code = *bytes++;
            int following = code < 0xC0 ? 0 : code < 0xE0 ? 1 : code < 0xF0 ? 2 : 3;
            if (following) code &= 0x3F >> following;
            while (following--) code = code << 6 | (*bytes++ & 0x3F);
            PyUnicode_WRITE(PyUnicode_KIND(made), PyUnicode_DATA(made), to, code);
        }
        return made;
    }
#endif
    return PyUnicode_DecodeUTF8((const char *)bytes, (Py_ssize_t)count, NULL);
}

/* The UTF-8 bytes of a str. One with a lone surrogate has none: DecimalError by the status. NULL with an exception. */
static const uint8_t *utf8_of(PyObject *text, size_t *count, const char *what, uint32_t status) {
    Py_ssize_t size;
    if (!PyUnicode_Check(text)) return fail_type(what, text);
    const char *bytes = PyUnicode_AsUTF8AndSize(text, &size);
    if (bytes) return *count = (size_t)size, (const uint8_t *)bytes;
    if (!PyErr_ExceptionMatches(PyExc_UnicodeEncodeError)) return NULL;
    PyErr_Clear();
    return fail_str(status, 0, text), NULL;
}

/* The index of a word, or -1 with an exception. */
static int index_of(const char *const *words, PyObject *word, const char *what) {
    Py_ssize_t count;
    if (!PyUnicode_Check(word)) return fail_type(what, word), -1;
    const char *bytes = PyUnicode_AsUTF8AndSize(word, &count);
    if (!bytes && !PyErr_ExceptionMatches(PyExc_UnicodeEncodeError)) return -1;
    for (int i = 0; bytes && words[i]; i++)
        if (strcmp(words[i], bytes) == 0 && strlen(bytes) == (size_t)count) return i;
    PyErr_Clear();
    PyErr_Format(PyExc_ValueError, "no such %s: %U", what, word);
    return -1;
}

/* Frees an object, which has a reference to its type. */
static void dealloc(PyObject *self) {
    PyTypeObject *type = Py_TYPE(self);
    PyObject_Free(self);
    Py_DECREF(type);
}

static Decimal *with_room(size_t count) {
    Decimal *made = PyObject_NewVar(Decimal, decimal_type, (Py_ssize_t)count);
    if (made) made->state = UNREAD;
    return made;
}

/* The decimal after calls on a text. */
static PyObject *run(const uint8_t *text, size_t count, const fd_call *calls, size_t call_count) {
    uint8_t buffer[ROOM];
    fd_result answer = fd_run(text, count, calls, call_count, FD_NONE(uint8_t), 0, buffer, ROOM);
    if (answer.status != FD_OK && answer.status != FD_BUFFER_TOO_SMALL)
        return fail_text(answer.status, answer.at, text, count);
    Decimal *made = with_room(answer.count);
    if (!made) return NULL;
    if (answer.status == FD_OK) {
        memcpy(made->text, buffer, answer.count);
        return (PyObject *)made;
    }
    answer = fd_run(text, count, calls, call_count, FD_NONE(uint8_t), 0, (uint8_t *)made->text, answer.count);
    if (answer.status == FD_OK) return (PyObject *)made;
    Py_DECREF(made);
    return fail_text(answer.status, answer.at, text, count);
}

/* What a module has by a name, imported at first use and kept: a borrowed reference. */
static PyObject *imported(PyObject **kept, const char *module_name, const char *name) {
    if (!*kept) {
        PyObject *module = PyImport_ImportModule(module_name);
        PyObject *found = module ? PyObject_GetAttrString(module, name) : NULL;
        Py_XDECREF(module);
        /* The import may have called this function. */
        Py_XDECREF(*kept);
        *kept = found;
    }
    return *kept;
}

static PyObject *python_decimal(void) {
    static PyObject *type;
    return imported(&type, "decimal", "Decimal");
}

/* Whether a decimal.Decimal is 0; -1 with an exception. */
static int is_zero(PyObject *value) {
    PyObject *found = PyObject_CallMethod(python_decimal(), "is_zero", "O", value);
    int is = found ? PyObject_IsTrue(found) : -1;
    Py_XDECREF(found);
    return is;
}

/* The digits of a decimal.Decimal without an exponent. If its first digit is beyond the limits, it is rejected before
 * its digits are made. A zero with a positive exponent is written as 0. The methods are those of decimal.Decimal also
 * for a subclass: the text is that of the value. */
static PyObject *text_of_decimal(PyObject *value) {
    PyObject *found = PyObject_CallMethod(python_decimal(), "adjusted", "O", value);
    if (!found) return NULL;
    Py_ssize_t magnitude = PyLong_AsSsize_t(found);
    Py_DECREF(found);
    if (magnitude == -1 && PyErr_Occurred()) return NULL;
    int is_beyond = magnitude < INT16_MIN || (magnitude > INT16_MAX && !is_zero(value));
    if (PyErr_Occurred()) return NULL;
    if (!is_beyond) return PyObject_CallMethod(python_decimal(), "__format__", "Os", value, "f");
    PyObject *text = PyObject_CallMethod(python_decimal(), "__str__", "O", value);
    if (text) fail_str(FD_LIMIT, 0, text);
    Py_XDECREF(text);
    return NULL;
}

/* The digits of an int. An int with more bits than 10^32768 is rejected before its digits are made. Those of a long int
 * are made by decimal.Decimal, since Python may refuse to write more than 640 digits (sys.set_int_max_str_digits). */
static PyObject *text_of_int(PyObject *value) {
    int is_long;
    PyLong_AsLongLongAndOverflow(value, &is_long);
    if (!is_long) return PyNumber_ToBase(value, 10);
    PyObject *bits = PyObject_CallMethod((PyObject *)&PyLong_Type, "bit_length", "O", value);
    if (!bits) return NULL;
    size_t count = PyLong_AsSize_t(bits);
    Py_DECREF(bits);
    if (count == (size_t)-1 && PyErr_Occurred()) return NULL;
    if (count > MOST_BITS) return fail(FD_LIMIT, 0);
    if (count < 2000) return PyNumber_ToBase(value, 10);
    PyObject *type = python_decimal(), *made = type ? PyObject_CallFunctionObjArgs(type, value, NULL) : NULL;
    PyObject *text = made ? text_of_decimal(made) : NULL;
    Py_XDECREF(made);
    return text;
}

/* Why a float is no number of a Decimal, and what to write. */
static const char *advice(PyObject *value) {
    return PyFloat_Check(value) ? ", whose digits are not those that were written: write str(x) of a float x" : "";
}

/* The text of an int or a decimal.Decimal. NULL with an exception, or without one of a value of another type. */
static PyObject *text_of_number(PyObject *value) {
    if (PyLong_Check(value)) return text_of_int(value);
    PyObject *type = python_decimal();
    int is = type ? PyObject_IsInstance(value, type) : -1;
    return is > 0 ? text_of_decimal(value) : NULL;
}

/* The text of a number, and what has to be released after its use. */
typedef struct {
    const uint8_t *bytes;
    size_t count;
    PyObject *made;
} Number;

/* Reads a number: a Decimal, a str, an int or a decimal.Decimal. 0 with an exception: a TypeError begins with what is
 * expected. */
static int number_of(PyObject *value, const char *expected, Number *number) {
    number->made = NULL;
    if (IS_DECIMAL(value)) {
        number->bytes = (const uint8_t *)((Decimal *)value)->text;
        number->count = (size_t)Py_SIZE(value);
        return 1;
    }
    if (!PyUnicode_Check(value)) {
        number->made = text_of_number(value);
        if (!number->made && !PyErr_Occurred())
            fail_kind(expected, value, advice(value));
        if (!number->made) return 0;
        value = number->made;
    }
    number->bytes = utf8_of(value, &number->count, "a text", FD_SYNTAX);
    if (!number->bytes) Py_CLEAR(number->made);
    return number->bytes != NULL;
}

static PyObject *parse_number(PyObject *value) {
    Number number;
    if (!number_of(value, "a Decimal is made from a str, an int or a decimal.Decimal", &number)) return NULL;
    PyObject *made = run(number.bytes, number.count, FD_NONE(fd_call), 0);
    Py_XDECREF(number.made);
    return made;
}

static PyObject *decimal_new(PyTypeObject *type, PyObject *arguments, PyObject *keywords) {
    PyObject *value = NULL;
    (void)type;
    if (keywords && PyDict_Size(keywords)) return PyErr_Format(PyExc_TypeError, "Decimal() takes no keywords");
    if (!PyArg_UnpackTuple(arguments, "Decimal", 0, 1, &value)) return NULL;
    if (!value) return run((const uint8_t *)"0", 1, FD_NONE(fd_call), 0);
    if (IS_DECIMAL(value)) return Py_NewRef(value);
    return parse_number(value);
}

#ifndef Py_LIMITED_API
static PyObject *decimal_vectorcall(PyObject *type, PyObject *const *arguments, size_t flags, PyObject *keywords) {
    Py_ssize_t count = PyVectorcall_NARGS(flags);
    if (count == 1 && !keywords && PyUnicode_Check(arguments[0])) return parse_number(arguments[0]);
    PyObject *tuple = PyTuple_New(count);
    if (!tuple) return NULL;
    for (Py_ssize_t i = 0; i < count; i++) PyTuple_SET_ITEM(tuple, i, Py_NewRef(arguments[i]));
    PyObject *made;
    if (keywords && PyTuple_GET_SIZE(keywords)) made = PyErr_Format(PyExc_TypeError, "Decimal() takes no keywords");
    else made = decimal_new((PyTypeObject *)type, tuple, NULL);
    Py_DECREF(tuple);
    return made;
}
#endif

static PyObject *decimal_str(Decimal *self) {
    return ascii_str(self->text, Py_SIZE(self));
}

static PyObject *decimal_repr(Decimal *self) {
    PyObject *text = decimal_str(self);
    PyObject *made = text ? PyUnicode_FromFormat("Decimal('%U')", text) : NULL;
    Py_XDECREF(text);
    return made;
}

static Py_hash_t decimal_hash(Decimal *self) {
    PyObject *text = decimal_str(self);
    Py_hash_t hash = text ? PyObject_Hash(text) : -1;
    Py_XDECREF(text);
    return hash;
}

/* Reads the key, if it is not read; returns whether there is one. */
static int has_key(Decimal *self) {
    if (self->state == UNREAD) {
        fd_keyed answer = fd_key_of(BYTES(self));
        self->key = answer.key;
        self->state = answer.status == FD_OK ? HAS_KEY : HAS_NONE;
    }
    return self->state == HAS_KEY;
}

static fd_number order_of(Decimal *left, Decimal *right) {
    return has_key(left) && has_key(right) ? fd_compare_keys(&left->key, &right->key)
                                           : fd_compare(BYTES(left), BYTES(right));
}

static PyObject *decimal_richcompare(Decimal *self, PyObject *value, int operation) {
    if (!IS_DECIMAL(value)) Py_RETURN_NOTIMPLEMENTED;
    Decimal *other = (Decimal *)value;
    if (operation == Py_EQ || operation == Py_NE) {
        int same = Py_SIZE(self) == Py_SIZE(other) && memcmp(self->text, other->text, (size_t)Py_SIZE(self)) == 0;
        return PyBool_FromLong(same == (operation == Py_EQ));
    }
    fd_number answer = order_of(self, other);
    if (answer.status != FD_OK) return fail(answer.status, answer.at);
    Py_RETURN_RICHCOMPARE(answer.value, 0, operation);
}

static PyObject *decimal_compare(Decimal *self, PyObject *value) {
    if (!IS_DECIMAL(value)) return fail_kind("compare() takes a Decimal", value, ": write Decimal(x)");
    fd_number answer = order_of(self, (Decimal *)value);
    return answer.status == FD_OK ? PyLong_FromLongLong(answer.value) : fail(answer.status, answer.at);
}

/* A position, or OverflowError. */
static int position_of(PyObject *value, int16_t *position) {
    long found = PyLong_AsLong(value);
    if (found == -1 && PyErr_Occurred()) return 0;
    if (found < INT16_MIN || found > INT16_MAX) {
        PyErr_SetString(PyExc_OverflowError, "a position is from -32768 to 32767");
        return 0;
    }
    *position = (int16_t)found;
    return 1;
}

/* The names of the arguments of a method: the first are required, and the first may be passed by position. */
typedef struct {
    const char *method;
    Py_ssize_t required, by_position;
    const char *names[5];
} Signature;

/* The arguments of a method by their names, and in a new dictionary the others, if it takes others. 0 with an
 * exception. */
static int bind(const Signature *signature, PyObject *const *arguments, Py_ssize_t count, PyObject *keywords,
                PyObject **values, PyObject **others) {
    const char *method = signature->method, *const *names = signature->names;
    if (count > signature->by_position)
        return PyErr_Format(PyExc_TypeError, "%s() takes at most %zd arguments by position", method,
                            signature->by_position), 0;
    for (Py_ssize_t i = 0; i < count; i++) values[i] = arguments[i];
    Py_ssize_t keyword_count = keywords ? PyTuple_Size(keywords) : 0;
    for (Py_ssize_t i = 0; i < keyword_count; i++) {
        PyObject *name = PyTuple_GetItem(keywords, i);
        Py_ssize_t at = 0;
        while (names[at] && PyUnicode_CompareWithASCIIString(name, names[at])) at++;
        if (!names[at] && others) {
            if (!*others && !(*others = PyDict_New())) return 0;
            if (PyDict_SetItem(*others, name, arguments[count + i]) < 0) return 0;
            continue;
        }
        if (!names[at] || values[at])
            return PyErr_Format(PyExc_TypeError, "%s() has no such argument: %U", method, name), 0;
        values[at] = arguments[count + i];
    }
    for (Py_ssize_t i = 0; i < signature->required; i++)
        if (!values[i]) return PyErr_Format(PyExc_TypeError, "%s() takes a %s", method, names[i]), 0;
    return 1;
}

static PyObject *decimal_round(Decimal *self, PyObject *const *arguments, Py_ssize_t count, PyObject *keywords) {
    static const Signature signature = {"round", 1, 3, {"position", "mode", "increment", NULL}};
    PyObject *values[3] = {NULL, NULL, NULL};
    if (count == 1 && !keywords) values[0] = arguments[0];
    else if (!bind(&signature, arguments, count, keywords, values, NULL)) return NULL;
    fd_call call = {.kind = FD_ROUND, .option = FD_HALF_EVEN, .increment = 1};
    if (!position_of(values[0], &call.position)) return NULL;
    if (values[1]) {
        int mode = index_of(modes, values[1], "mode");
        if (mode < 0) return NULL;
        call.option = (uint8_t)mode;
    }
    if (values[2]) {
        long increment = PyLong_AsLong(values[2]);
        if (increment == -1 && PyErr_Occurred()) return NULL;
        call.increment = increment < 0 || increment > 255 ? 0 : (uint8_t)increment;
    }
    return run(BYTES(self), &call, 1);
}

static PyObject *decimal_shift(Decimal *self, PyObject *value) {
    fd_call call = {.kind = FD_SHIFT};
    return position_of(value, &call.position) ? run(BYTES(self), &call, 1) : NULL;
}

static PyObject *decimal_trim(Decimal *self, PyObject *ignored) {
    static const fd_call calls[2] = {{.kind = FD_TRIM_START}, {.kind = FD_TRIM_END}};
    (void)ignored;
    return run(BYTES(self), calls, 2);
}

static PyObject *decimal_pad(Decimal *self, PyObject *arguments, PyObject *keywords) {
    static char *names[] = {"start", "end", NULL};
    PyObject *values[2] = {NULL, NULL};
    if (!PyArg_ParseTupleAndKeywords(arguments, keywords, "|OO:pad", names, &values[0], &values[1])) return NULL;
    fd_call calls[2];
    size_t count = 0;
    for (int i = 0; i < 2; i++) {
        if (!values[i]) continue;
        calls[count] = (fd_call){.kind = i ? FD_PAD_END : FD_PAD_START};
        if (!position_of(values[i], &calls[count].position)) return NULL;
        count++;
    }
    return run(BYTES(self), calls, count);
}

static PyObject *decimal_sign(Decimal *self, PyObject *value) {
    int display = index_of(displays, value, "display of a sign");
    fd_call call = {.kind = FD_DISPLAY, .option = (uint8_t)display};
    return display < 0 ? NULL : run(BYTES(self), &call, 1);
}

static PyObject *decimal_with_sign(Decimal *self, PyObject *value) {
    int sign = index_of(signs, value, "sign");
    fd_call call = {.kind = FD_SIGN, .option = (uint8_t)sign};
    return sign < 0 ? NULL : run(BYTES(self), &call, 1);
}

/* As decimal.Decimal: a zero has no minus. */
static PyObject *decimal_negative(Decimal *self) {
    fd_number sign = fd_sign(BYTES(self));
    if (sign.status != FD_OK) return fail(sign.status, sign.at);
    fd_call calls[2] = {{.kind = FD_SIGN, .option = sign.value < 0 ? FD_NO_SIGN : FD_MINUS},
                        {.kind = FD_DISPLAY, .option = FD_NEGATIVE}};
    return run(BYTES(self), calls, 2);
}

static PyObject *decimal_absolute(Decimal *self) {
    static const fd_call call = {.kind = FD_SIGN, .option = FD_NO_SIGN};
    return run(BYTES(self), &call, 1);
}

static int decimal_bool(Decimal *self) {
    fd_number order = fd_compare(BYTES(self), (const uint8_t *)"0", 1);
    return order.status == FD_OK ? order.value != 0 : (fail(order.status, order.at), -1);
}

static PyObject *decimal_as_decimal(Decimal *self, PyObject *ignored) {
    (void)ignored;
    PyObject *type = python_decimal(), *text = type ? decimal_str(self) : NULL;
    PyObject *made = text ? PyObject_CallFunctionObjArgs(type, text, NULL) : NULL;
    Py_XDECREF(text);
    return made;
}

/* The int of a decimal that is rounded to one. */
static PyObject *rounded_int(Decimal *self, uint8_t mode) {
    fd_call call = {.kind = FD_ROUND, .option = mode, .increment = 1};
    Decimal *whole = (Decimal *)run(BYTES(self), &call, 1);
    if (!whole) return NULL;
    fd_number answer = fd_to_i64(BYTES(whole));
    PyObject *made = NULL;
    if (answer.status == FD_OK) {
        made = PyLong_FromLongLong(answer.value);
    } else if (answer.status == FD_OUT_OF_RANGE) {
        PyObject *value = decimal_as_decimal(whole, NULL);
        made = value ? PyNumber_Long(value) : NULL;
        Py_XDECREF(value);
    } else {
        fail(answer.status, answer.at);
    }
    Py_DECREF(whole);
    return made;
}

static PyObject *decimal_int(Decimal *self) {
    return rounded_int(self, FD_TRUNC);
}

/* To a number of decimals; or, without one, to an int. */
static PyObject *decimal_dunder_round(Decimal *self, PyObject *const *arguments, Py_ssize_t count) {
    if (count > 1) return PyErr_Format(PyExc_TypeError, "__round__() takes at most 1 argument");
    if (!count || arguments[0] == Py_None) return rounded_int(self, FD_HALF_EVEN);
    fd_call call = {.kind = FD_ROUND, .option = FD_HALF_EVEN, .increment = 1};
    PyObject *position = PyNumber_Index(arguments[0]), *negated = position ? PyNumber_Negative(position) : NULL;
    int is_bound = negated && position_of(negated, &call.position);
    Py_XDECREF(negated);
    Py_XDECREF(position);
    return is_bound ? run(BYTES(self), &call, 1) : NULL;
}

/* The number of the locale of a tag; 0 with an exception. The last tag is kept with its number. Only an exact str is
 * kept: releasing an instance of a subclass may run code that calls this function. */
static uint64_t locale_of(PyObject *tag) {
    static PyObject *last;
    static uint64_t number;
    if (tag == last) return number;
    size_t count;
    const uint8_t *bytes = utf8_of(tag, &count, "a locale", FD_UNKNOWN_LOCALE);
    if (!bytes) return 0;
    fd_unsigned answer = fd_locale(bytes, count);
    if (answer.status != FD_OK) return fail_text(answer.status, answer.at, bytes, count), 0;
    if (PyUnicode_CheckExact(tag)) {
        PyObject *before = last;
        last = Py_NewRef(tag);
        number = answer.value;
        Py_XDECREF(before);
    }
    return answer.value;
}

/* Reads options from their bytes. 0 with an exception. */
static int options_of(PyObject *value, fd_number_options *options) {
    char *bytes;
    Py_ssize_t count;
    if (PyBytes_AsStringAndSize(value, &bytes, &count) < 0) return 0;
    if (count != sizeof *options) return PyErr_SetString(PyExc_ValueError, "no options of a number"), 0;
    memcpy(options, bytes, sizeof *options);
    return 1;
}

/* Whether all values are of types whose equality no other code decides: what was made of such values may be taken for
 * others that are equal and of these types. */
static int have_own_equality(PyObject *values) {
    Py_ssize_t at = 0;
    PyObject *name, *value;
    while (PyDict_Next(values, &at, &name, &value))
        if (!PyUnicode_CheckExact(value) && !PyLong_CheckExact(value) && !PyBool_Check(value) && value != Py_None)
            return 0;
    return 1;
}

/* Calls a function with arguments up to one that is NULL, and keywords or NULL. */
static PyObject *call(PyObject *function, PyObject *first, PyObject *second, PyObject *keywords) {
    PyObject *arguments = PyTuple_New((first != NULL) + (second != NULL));
    if (arguments && first) PyTuple_SetItem(arguments, 0, Py_NewRef(first));
    if (arguments && second) PyTuple_SetItem(arguments, 1, Py_NewRef(second));
    PyObject *found = arguments ? PyObject_Call(function, arguments, keywords) : NULL;
    Py_XDECREF(arguments);
    return found;
}

/* Reads options by their names, or none. With `own`, that gets those that are not the defaults, as a tuple of pairs. 0
 * with an exception. */
static int bind_options(PyObject *names, fd_number_options *options, PyObject **own) {
    static PyObject *kept, *made;
    PyObject *bytes, *pairs;
    PyObject *function = names && have_own_equality(names)
        ? imported(&kept, "fixed_decimal._options", "kept_number_options")
        : imported(&made, "fixed_decimal._options", "number_options");
    PyObject *found = function ? call(function, NULL, NULL, names) : NULL;
    int is_bound = found && PyArg_ParseTuple(found, "OO!", &bytes, &PyTuple_Type, &pairs) && options_of(bytes, options);
    if (is_bound && own) *own = Py_NewRef(pairs);
    Py_XDECREF(found);
    return is_bound;
}

/* Whether options name only the grouping and the sign, so that nothing is rounded. */
static int is_plain(PyObject *options) {
    Py_ssize_t at = 0;
    PyObject *name, *value;
    while (PyDict_Next(options, &at, &name, &value))
        if (PyUnicode_CompareWithASCIIString(name, "use_grouping") &&
            PyUnicode_CompareWithASCIIString(name, "sign_display"))
            return 0;
    return 1;
}

/* Reads options that round nothing: the grouping, and a call if they name the sign. 0 with an exception. */
static int bind_plain(PyObject *options, uint8_t *grouping, fd_call *call, size_t *call_count) {
    fd_number_options found;
    if (!bind_options(options, &found, NULL)) return 0;
    PyObject *sign = PyUnicode_FromString("sign_display");
    int has_sign = sign ? PyDict_Contains(options, sign) : -1;
    Py_XDECREF(sign);
    if (has_sign < 0) return 0;
    *grouping = found.grouping;
    *call = (fd_call){.kind = FD_DISPLAY, .option = found.sign_display};
    *call_count = (size_t)has_sign;
    return 1;
}

/* ---- Formats. */

/* The str with the text of a str, which may be of a subclass. */
static PyObject *exact_str(PyObject *text, const char *what) {
    return PyUnicode_Check(text) ? PyUnicode_FromObject(text) : fail_type(what, text);
}

/* Makes the formatter of a format by a skeleton, or, if it is NULL, by options. 0 with an exception: of a locale or a
 * skeleton with its text. */
static int make_formatter(NumberFormat *format, const fd_number_options *options) {
    size_t tag_count, count = 0;
    const uint8_t *tag = utf8_of(format->locale, &tag_count, "a locale", FD_UNKNOWN_LOCALE), *skeleton = NULL;
    if (!tag) return 0;
    if (format->skeleton && !(skeleton = utf8_of(format->skeleton, &count, "a skeleton", FD_SKELETON_SYNTAX))) return 0;
    fd_made made = skeleton ? fd_formatter_by_skeleton(tag, tag_count, skeleton, count)
                            : fd_formatter_by_options(tag, tag_count, options);
    format->formatter = made.formatter;
    switch (made.status) {
        case FD_OK: return 1;
        case FD_UNKNOWN_LOCALE: return fail_text(made.status, made.at, tag, tag_count), 0;
        case FD_SKELETON_SYNTAX:
        case FD_SKELETON_UNSUPPORTED: return fail_text(made.status, made.at, skeleton, count), 0;
    }
    return fail(made.status, made.at), 0;
}

/* The format of a locale, and a skeleton or, if it is NULL, options by their names, or none. */
static PyObject *make_format(PyObject *locale, PyObject *skeleton, PyObject *options) {
    fd_number_options found;
    NumberFormat *made = PyObject_New(NumberFormat, number_format_type);
    if (!made) return NULL;
    made->skeleton = made->options = NULL;
    made->locale = exact_str(locale, "a locale");
    int is_bound = made->locale && (skeleton ? (made->skeleton = exact_str(skeleton, "a skeleton")) != NULL
                                             : bind_options(options, &found, &made->options));
    if (is_bound && make_formatter(made, &found)) return (PyObject *)made;
    Py_DECREF(made);
    return NULL;
}

/* The same, taken from the last formats that were made. */
static PyObject *kept_format(PyObject *locale, PyObject *skeleton, PyObject *options) {
    static PyObject *kept;
    int can_be_kept = skeleton ? PyUnicode_CheckExact(skeleton) : !options || have_own_equality(options);
    if (!can_be_kept || !PyUnicode_CheckExact(locale)) return make_format(locale, skeleton, options);
    PyObject *function = imported(&kept, "fixed_decimal._options", "kept_number_format");
    if (!function) return NULL;
    PyObject *found = call(function, locale, skeleton, skeleton ? NULL : options);
    if (!found || IS_NUMBER_FORMAT(found)) return found;
    Py_DECREF(found);
    PyErr_BadInternalCall();
    return NULL;
}

/* Raises TypeError for a skeleton beside options. */
static PyObject *fail_both(const char *method) {
    return PyErr_Format(PyExc_TypeError, "%s() takes a skeleton or options, not both: a skeleton has them all", method);
}

/* Takes a name out of keywords. NULL with an exception, or without one if it is not there. */
static PyObject *taken(PyObject *keywords, const char *name) {
    PyObject *key = PyUnicode_FromString(name), *value = key ? PyDict_GetItemWithError(keywords, key) : NULL;
    Py_XINCREF(value);
    if (value && PyDict_DelItem(keywords, key) < 0) Py_CLEAR(value);
    Py_XDECREF(key);
    return value;
}

static PyObject *number_format_new(PyTypeObject *type, PyObject *arguments, PyObject *keywords) {
    (void)type;
    PyObject *locale = NULL, *made = NULL, *skeleton = NULL;
    PyObject *options = keywords ? PyDict_Copy(keywords) : PyDict_New();
    if (!options) return NULL;
    if (!PyArg_UnpackTuple(arguments, "NumberFormat", 0, 1, &locale)) return Py_DECREF(options), NULL;
    Py_XINCREF(locale);
    if (!locale) locale = taken(options, "locale");
    if (!PyErr_Occurred()) skeleton = taken(options, "skeleton");
    if (skeleton == Py_None) Py_CLEAR(skeleton);
    if (!locale && !PyErr_Occurred()) PyErr_SetString(PyExc_TypeError, "NumberFormat() takes a locale");
    else if (skeleton && PyDict_Size(options)) fail_both("NumberFormat");
    if (!PyErr_Occurred()) made = make_format(locale, skeleton, options);
    Py_XDECREF(skeleton);
    Py_XDECREF(locale);
    Py_DECREF(options);
    return made;
}

static void number_format_dealloc(NumberFormat *self) {
    Py_XDECREF(self->locale);
    Py_XDECREF(self->skeleton);
    Py_XDECREF(self->options);
    dealloc((PyObject *)self);
}

/* What writes a text into a buffer. */
typedef fd_result (*Writer)(const void *job, uint8_t *buffer, size_t room);

/* Raises DecimalError with the text that fails: that of the end of a range at 1, and else that of the start. */
static PyObject *fail_number(uint32_t status, size_t at, const Number *start, const Number *end) {
    const Number *failed = end && at == 1 ? end : start;
    return fail_text(status, at, failed->bytes, failed->count);
}

/* The str of what is written of a number, or of the range to another one; an error is that of one of both. */
static PyObject *written(Writer write, const void *job, const Number *start, const Number *end) {
    uint8_t buffer[ROOM], *bytes = buffer;
    PyObject *made = NULL;
    fd_result answer = write(job, buffer, ROOM);
    if (answer.status == FD_BUFFER_TOO_SMALL) {
        size_t room = answer.count;
        bytes = PyMem_Malloc(room);
        if (!bytes) return PyErr_NoMemory();
        answer = write(job, bytes, room);
    }
    if (answer.status == FD_OK) made = utf8_str(bytes, answer.count);
    else fail_number(answer.status, answer.at, start, end);
    if (bytes != buffer) PyMem_Free(bytes);
    return made;
}

/* A number, or if there is an end the range to it, and what it is formatted by. */
typedef struct {
    const fd_formatter *formatter;
    const Number *start, *end;
} Formatting;

static fd_result write_formatted(const void *job, uint8_t *buffer, size_t room) {
    const Formatting *it = job;
    const Number *start = it->start, *end = it->end;
    return end ? fd_format_range(it->formatter, start->bytes, start->count, end->bytes, end->count, buffer, room)
               : fd_format(it->formatter, start->bytes, start->count, buffer, room);
}

static PyObject *formatted(const NumberFormat *format, const Number *start, const Number *end) {
    Formatting job = {&format->formatter, start, end};
    return written(write_formatted, &job, start, end);
}

static const char *const part_kinds[] = {"integer", "group", "decimal", "fraction", "minusSign", "plusSign",
    "percentSign", "currency", "literal", "compact", "unit", "exponentSeparator", "exponentMinusSign",
    "exponentPlusSign", "exponentInteger", "approximatelySign"};
static const char *const part_sources[] = {"shared", "startRange", "endRange"};

/* The parts of a text, as formatToParts of Intl.NumberFormat has them; those of a range have a source. */
static PyObject *list_of_parts(const uint8_t *text, const fd_part *parts, size_t count, int is_range) {
    PyObject *made = PyList_New((Py_ssize_t)count);
    for (size_t i = 0; made && i < count; i++) {
        const char *start = (const char *)text + parts[i].start, *kind = part_kinds[parts[i].kind];
        Py_ssize_t size = (Py_ssize_t)(parts[i].end - parts[i].start);
        PyObject *part = is_range ? Py_BuildValue("{s:s,s:s#,s:s}", "type", kind, "value", start, size, "source",
                                                  part_sources[parts[i].source])
                                  : Py_BuildValue("{s:s,s:s#}", "type", kind, "value", start, size);
        if (part) PyList_SET_ITEM(made, (Py_ssize_t)i, part);
        else Py_CLEAR(made);
    }
    return made;
}

static fd_parted write_parts(const Formatting *it, uint8_t *buffer, size_t room, fd_part *parts, size_t part_room) {
    const Number *start = it->start, *end = it->end;
    return end ? fd_format_range_parts(it->formatter, start->bytes, start->count, end->bytes, end->count, buffer, room,
                                       parts, part_room)
               : fd_format_parts(it->formatter, start->bytes, start->count, buffer, room, parts, part_room);
}

static PyObject *parted(const NumberFormat *format, const Number *start, const Number *end) {
    uint8_t buffer[ROOM], *bytes = buffer;
    fd_part array[ROOM / 4], *parts = array;
    Formatting job = {&format->formatter, start, end};
    PyObject *made = NULL;
    fd_parted answer = write_parts(&job, buffer, ROOM, array, ROOM / 4);
    if (answer.status == FD_BUFFER_TOO_SMALL || answer.status == FD_PARTS_TOO_SMALL) {
        parts = PyMem_Malloc(answer.parts * sizeof *parts + answer.count);
        if (!parts) return PyErr_NoMemory();
        bytes = (uint8_t *)(parts + answer.parts);
        answer = write_parts(&job, bytes, answer.count, parts, answer.parts);
    }
    if (answer.status == FD_OK) made = list_of_parts(bytes, parts, answer.parts, end != NULL);
    else fail_number(answer.status, answer.at, start, end);
    if (parts != array) PyMem_Free(parts);
    return made;
}

/* What makes a str or a list of a number, or of the range to another one. */
typedef PyObject *(*Formatter)(const NumberFormat *format, const Number *start, const Number *end);

static const char number_expected[] = "a number is a str, an int or a Decimal";

static PyObject *format_one(const NumberFormat *format, PyObject *value, Formatter make) {
    Number number;
    if (!number_of(value, number_expected, &number)) return NULL;
    PyObject *made = make(format, &number, NULL);
    Py_XDECREF(number.made);
    return made;
}

static PyObject *format_two(const NumberFormat *format, PyObject *const *values, Py_ssize_t count, Formatter make,
                            const char *method) {
    Number start, end;
    if (count != 2) return PyErr_Format(PyExc_TypeError, "%s() takes a start and an end", method);
    if (!number_of(values[0], number_expected, &start)) return NULL;
    PyObject *made = NULL;
    if (number_of(values[1], number_expected, &end)) {
        made = make(format, &start, &end);
        Py_XDECREF(end.made);
    }
    Py_XDECREF(start.made);
    return made;
}

static PyObject *number_format_format(NumberFormat *self, PyObject *value) {
    return format_one(self, value, formatted);
}

static PyObject *number_format_format_to_parts(NumberFormat *self, PyObject *value) {
    return format_one(self, value, parted);
}

static PyObject *number_format_format_range(NumberFormat *self, PyObject *const *arguments, Py_ssize_t count) {
    return format_two(self, arguments, count, formatted, "format_range");
}

static PyObject *number_format_format_range_to_parts(NumberFormat *self, PyObject *const *arguments, Py_ssize_t count) {
    return format_two(self, arguments, count, parted, "format_range_to_parts");
}

/* The Decimal of a text that a format has written. */
static PyObject *read_number(const NumberFormat *format, PyObject *text, int is_lenient) {
    uint8_t buffer[ROOM];
    size_t count;
    const uint8_t *bytes = utf8_of(text, &count, "a text", FD_SYNTAX);
    if (!bytes) return NULL;
    Decimal *made = NULL;
    uint32_t lenient = (uint32_t)is_lenient;
    fd_result answer = fd_read(&format->formatter, bytes, count, lenient, buffer, ROOM);
    if (answer.status == FD_OK || answer.status == FD_BUFFER_TOO_SMALL) {
        made = with_room(answer.count);
        if (!made) return NULL;
        if (answer.status == FD_OK) memcpy(made->text, buffer, answer.count);
        else answer = fd_read(&format->formatter, bytes, count, lenient, (uint8_t *)made->text, answer.count);
    }
    if (answer.status == FD_OK) return (PyObject *)made;
    Py_XDECREF(made);
    return answer.status == FD_UNREADABLE_FORMAT ? fail(answer.status, answer.at)
                                                 : fail_text(answer.status, answer.at, bytes, count);
}

static PyObject *number_format_read(NumberFormat *self, PyObject *const *arguments, Py_ssize_t count,
                                    PyObject *keywords) {
    static const Signature signature = {"read", 1, 2, {"text", "lenient", NULL}};
    PyObject *values[2] = {NULL, NULL};
    if (!bind(&signature, arguments, count, keywords, values, NULL)) return NULL;
    int is_lenient = values[1] ? PyObject_IsTrue(values[1]) : 0;
    return is_lenient < 0 ? NULL : read_number(self, values[0], is_lenient);
}

static PyObject *number_format_resolved_options(NumberFormat *self, PyObject *ignored) {
    static PyObject *kept;
    (void)ignored;
    fd_resolution answer = fd_resolved(&self->formatter);
    if (answer.status != FD_OK) return fail(answer.status, 0);
    PyObject *function = imported(&kept, "fixed_decimal._options", "resolved_options");
    return function ? PyObject_CallFunction(function, "Oy#", self->locale, (const char *)&answer.options,
                                            (Py_ssize_t)sizeof answer.options) : NULL;
}

/* A new dictionary of the keywords by which the format is made. */
static PyObject *keywords_of(const NumberFormat *self) {
    return self->skeleton ? Py_BuildValue("{s:O}", "skeleton", self->skeleton)
                          : PyObject_CallFunctionObjArgs((PyObject *)&PyDict_Type, self->options, NULL);
}

/* By its options' names, so that another version of the module reads it. */
static PyObject *number_format_reduce(NumberFormat *self, PyObject *ignored) {
    static PyObject *kept;
    (void)ignored;
    PyObject *function = imported(&kept, "copyreg", "__newobj_ex__");
    return function ? Py_BuildValue("O(O(O)N)", function, number_format_type, self->locale, keywords_of(self)) : NULL;
}

static PyObject *number_format_repr(NumberFormat *self) {
    Py_ssize_t at = 0;
    PyObject *name, *value, *keywords = keywords_of(self);
    PyObject *made = keywords ? PyUnicode_FromFormat("NumberFormat(%R", self->locale) : NULL;
    while (made && PyDict_Next(keywords, &at, &name, &value)) {
        PyObject *before = made;
        made = PyUnicode_FromFormat("%U, %U=%R", before, name, value);
        Py_DECREF(before);
    }
    PyObject *closed = made ? PyUnicode_FromFormat("%U)", made) : NULL;
    Py_XDECREF(made);
    Py_XDECREF(keywords);
    return closed;
}

/* What two equal formats have the same: the locale, and the skeleton or the options. */
static PyObject *key_of(const NumberFormat *self) {
    return PyTuple_Pack(2, self->locale, self->skeleton ? self->skeleton : self->options);
}

static Py_hash_t number_format_hash(NumberFormat *self) {
    PyObject *key = key_of(self);
    Py_hash_t hash = key ? PyObject_Hash(key) : -1;
    Py_XDECREF(key);
    return hash;
}

static PyObject *number_format_richcompare(NumberFormat *self, PyObject *value, int operation) {
    if (!IS_NUMBER_FORMAT(value) || (operation != Py_EQ && operation != Py_NE)) Py_RETURN_NOTIMPLEMENTED;
    PyObject *key = key_of(self), *other = key ? key_of((NumberFormat *)value) : NULL;
    PyObject *made = other ? PyObject_RichCompare(key, other, operation) : NULL;
    Py_XDECREF(other);
    Py_XDECREF(key);
    return made;
}

/* ---- Decimals in a format. */

/* A decimal, and the forms that it is formatted by, after a call if there is one. */
typedef struct {
    const Decimal *decimal;
    fd_forms forms;
    fd_call call;
    size_t call_count;
} Plain;

static fd_result write_plainly(const void *job, uint8_t *buffer, size_t room) {
    const Plain *it = job;
    return fd_convert(BYTES(it->decimal), &it->forms, &it->call, it->call_count, FD_NONE(uint8_t), 0, buffer, room);
}

/* The text by a locale, and a grouping or options that round nothing, or neither. */
static PyObject *formatted_plainly(const Decimal *self, PyObject *locale, PyObject *grouping, PyObject *options) {
    Plain job = {.decimal = self};
    fd_form *form = &job.forms.format;
    if (grouping) {
        int found = index_of(groupings, grouping, "grouping");
        if (found < 0) return NULL;
        form->option = (uint8_t)found;
    }
    if (options && !bind_plain(options, &form->option, &job.call, &job.call_count)) return NULL;
    form->locale = locale_of(locale);
    Number number = {BYTES(self), NULL};
    return form->locale ? written(write_plainly, &job, &number, NULL) : NULL;
}

/* The arguments: a locale, and a grouping, a skeleton, or options by their names in ECMA-402. */
static PyObject *decimal_format(Decimal *self, PyObject *const *arguments, Py_ssize_t count, PyObject *keywords) {
    static const Signature signature = {"format", 1, 2, {"locale", "grouping", "skeleton", NULL}};
    PyObject *values[3] = {NULL, NULL, NULL}, *options = NULL, *made = NULL;
    if (!bind(&signature, arguments, count, keywords, values, &options)) return Py_XDECREF(options), NULL;
    PyObject *skeleton = values[2] == Py_None ? NULL : values[2];
    if (skeleton && (values[1] || options)) {
        fail_both("format");
    } else if (values[1] && options) {
        PyErr_SetString(PyExc_TypeError, "format() takes a grouping or options, not both: write use_grouping=");
    } else if (skeleton || (options && !is_plain(options))) {
        PyObject *format = kept_format(values[0], skeleton, options);
        Number number = {BYTES(self), NULL};
        if (format) made = formatted((NumberFormat *)format, &number, NULL);
        Py_XDECREF(format);
    } else {
        made = formatted_plainly(self, values[0], values[1], options);
    }
    Py_XDECREF(options);
    return made;
}

/* The arguments: a text and a locale; a skeleton or options, or neither, which is the empty skeleton; and `lenient`. */
static PyObject *decimal_read(PyObject *ignored, PyObject *const *arguments, Py_ssize_t count, PyObject *keywords) {
    static const Signature signature = {"read", 2, 2, {"text", "locale", "skeleton", "lenient", NULL}};
    PyObject *values[4] = {NULL, NULL, NULL, NULL}, *options = NULL, *format = NULL, *made = NULL, *empty = NULL;
    (void)ignored;
    if (!bind(&signature, arguments, count, keywords, values, &options)) return Py_XDECREF(options), NULL;
    PyObject *skeleton = values[2] == Py_None ? NULL : values[2];
    int is_lenient = values[3] ? PyObject_IsTrue(values[3]) : 0;
    if (skeleton && options) fail_both("read");
    else if (!skeleton && !options) skeleton = empty = PyUnicode_FromString("");
    if (is_lenient >= 0 && !PyErr_Occurred()) format = kept_format(values[1], skeleton, options);
    if (format) made = read_number((NumberFormat *)format, values[0], is_lenient);
    Py_XDECREF(format);
    Py_XDECREF(empty);
    Py_XDECREF(options);
    return made;
}

/* By a locale, as `pl` or `en:ordinal`, or by rules in CLDR's syntax. */
static PyObject *decimal_plural(Decimal *self, PyObject *value) {
    size_t count;
    const uint8_t *word = utf8_of(value, &count, "a locale", FD_RULES_SYNTAX);
    if (!word) return NULL;
    fd_unsigned rules = fd_rules(word, count);
    if (rules.status != FD_OK) return fail_text(rules.status, rules.at, word, count);
    fd_number answer = rules.value ? fd_category_of(rules.value, BYTES(self)) : fd_category(word, count, BYTES(self));
    return answer.status == FD_OK ? PyUnicode_FromString(categories[answer.value])
                                  : fail_text(answer.status, answer.at, word, count);
}

/* How a text is padded to a width; with the alignment '=' the fill is between the sign and the digits. */
typedef struct {
    Py_UCS4 fill, alignment;
    Py_ssize_t width;
} Padding;

static int is_alignment(PyObject *text, Py_ssize_t at) {
    Py_UCS4 found = at < PyUnicode_GetLength(text) ? PyUnicode_ReadChar(text, at) : 0;
    return found == '<' || found == '>' || found == '=' || found == '^';
}

/* Reads a specification that has only a fill, an alignment and a width; the defaults are those of numbers. Returns 0
 * for any other specification. */
static int padding_of(PyObject *specification, Padding *padding) {
    *padding = (Padding){.fill = ' ', .alignment = '>'};
    Py_ssize_t size = PyUnicode_GetLength(specification), at = 0;
    if (is_alignment(specification, 1)) {
        padding->fill = PyUnicode_ReadChar(specification, 0);
        padding->alignment = PyUnicode_ReadChar(specification, 1);
        at = 2;
    } else if (is_alignment(specification, 0)) {
        padding->alignment = PyUnicode_ReadChar(specification, 0);
        at = 1;
    } else if (size && PyUnicode_ReadChar(specification, 0) == '0') {
        padding->fill = '0', padding->alignment = '=';
        at = 1;
    }
    if (at < size && PyUnicode_ReadChar(specification, at) == '0') return 0;
    for (; at < size; at++) {
        Py_UCS4 digit = PyUnicode_ReadChar(specification, at) - '0';
        if (digit > 9 || padding->width > (PY_SSIZE_T_MAX - 9) / 10) return 0;
        padding->width = 10 * padding->width + (Py_ssize_t)digit;
    }
    return 1;
}

static PyObject *padded(Decimal *self, const Padding *padding) {
    Py_ssize_t count = Py_SIZE(self), more = padding->width - count, before = more;
    if (more <= 0) return decimal_str(self);
    Py_ssize_t sign = padding->alignment == '=' && (self->text[0] == '-' || self->text[0] == '+');
    if (padding->alignment == '<') before = 0;
    if (padding->alignment == '^') before = more / 2;
    PyObject *fill = PyUnicode_FromOrdinal((int)padding->fill), *text = fill ? decimal_str(self) : NULL, *made = NULL;
    PyObject *parts[] = {text ? PySequence_Repeat(fill, before) : NULL,
                         text ? PyUnicode_Substring(text, 0, sign) : NULL,
                         text ? PyUnicode_Substring(text, sign, count) : NULL,
                         text ? PySequence_Repeat(fill, more - before) : NULL};
    if (parts[0] && parts[1] && parts[2] && parts[3])
        made = PyUnicode_FromFormat("%U%U%U%U", parts[sign ? 1 : 0], parts[sign ? 0 : 1], parts[2], parts[3]);
    for (int i = 0; i < 4; i++) Py_XDECREF(parts[i]);
    Py_XDECREF(text);
    Py_XDECREF(fill);
    return made;
}

/* Pads the text if the specification has only a fill, an alignment and a width; otherwise formats as decimal.Decimal
 * does. */
static PyObject *decimal_dunder_format(Decimal *self, PyObject *specification) {
    Padding padding;
    if (!PyUnicode_Check(specification)) return fail_type("a specification", specification);
    if (padding_of(specification, &padding)) return padded(self, &padding);
    PyObject *text = decimal_str(self), *type = text ? python_decimal() : NULL;
    PyObject *value = type ? PyObject_CallFunctionObjArgs(type, text, NULL) : NULL;
    PyObject *made = value ? PyObject_Format(value, specification) : NULL;
    Py_XDECREF(value);
    Py_XDECREF(text);
    return made;
}

static PyObject *decimal_reduce(Decimal *self, PyObject *ignored) {
    (void)ignored;
    return Py_BuildValue("O(N)", decimal_type, decimal_str(self));
}

/* The number of texts of a block, and the greatest number of blocks at a time. */
#define BLOCK_TEXTS 16384
#define MOST_BLOCKS 17

/* Bytes that grow. */
typedef struct {
    char *bytes;
    size_t count, room;
} Buffer;

/* What a column does at a text that fails: it ends with the error, has None, or has the text itself. */
static const char *const on_errors[] = {"raise", "skip", "keep", NULL};
enum on_error { RAISE, SKIP, KEEP };

/* What a column does with each text, and the texts of its forms and calls, one after another. With a format, which is
 * a NumberFormat, that is used after the calls, and there is no form of the results. */
typedef struct {
    enum on_error on_error;
    fd_forms forms;
    fd_call *calls;
    size_t call_count;
    Buffer texts;
    PyObject *format;
} Work;

/* Texts of a column from an index on, as lines, the lines after the calls where a format follows, and the lines of the
 * results. */
typedef struct {
    const Work *work;
    Py_ssize_t first;
    Buffer input, called, output;
    fd_column answer;
    pthread_t thread;
    enum { EMPTY, RUNNING, CONVERTED } state;
} Block;

/* Makes room for a number of bytes more; 0 if out of memory. */
static inline int reserve(Buffer *buffer, size_t more) {
    if (more <= buffer->room - buffer->count) return 1;
    size_t room = 2 * buffer->room + more;
    char *bytes = PyMem_RawRealloc(buffer->bytes, room);
    if (!bytes) return 0;
    buffer->bytes = bytes;
    buffer->room = room;
    return 1;
}

/* Appends bytes; 0 with MemoryError. */
static inline int append(Buffer *buffer, const void *bytes, size_t count) {
    if (!reserve(buffer, count + 1)) return PyErr_NoMemory(), 0;
    memcpy(buffer->bytes + buffer->count, bytes, count);
    buffer->count += count;
    return 1;
}

/* Sets the line of the raised DecimalError; other exceptions stay as they are. */
static void set_line(size_t index) {
    PyObject *type, *value, *trace;
    PyErr_Fetch(&type, &value, &trace);
    PyErr_NormalizeException(&type, &value, &trace);
    int is_own = PyErr_GivenExceptionMatches(type, decimal_error);
    PyObject *line = is_own ? PyLong_FromSize_t(index) : NULL;
    int is_set = line && PyObject_SetAttrString(value, "line", line) == 0;
    Py_XDECREF(line);
    if (is_set || !is_own) {
        PyErr_Restore(type, value, trace);
    } else {
        Py_XDECREF(type), Py_XDECREF(value), Py_XDECREF(trace);
    }
}

/* Whether the tag or the skeleton of a form has an error. */
static int is_wrong(const Buffer *texts, const fd_form *form, uint32_t status) {
    const uint8_t *bytes = (const uint8_t *)texts->bytes;
    uint8_t buffer[1];
    fd_result answer = {.status = FD_OK};
    if (status == FD_UNKNOWN_LOCALE) {
        if (form->count) answer.status = fd_locale(bytes + form->start, form->count).status;
    } else if (form->skeleton_count) {
        answer = fd_format_by_skeleton((const uint8_t *)"0", 1, (const uint8_t *)"en", 2, bytes + form->skeleton_start,
                                       form->skeleton_count, buffer, 0);
    }
    return answer.status == status;
}

/* Raises the error of a form, with the tag or the skeleton if it has the error. */
static void fail_form(const Work *work, const fd_column *answer) {
    const fd_form *forms[] = {&work->forms.read, &work->forms.format};
    for (int i = 0; i < 2; i++) {
        if (!is_wrong(&work->texts, forms[i], answer->status)) continue;
        int is_tag = answer->status == FD_UNKNOWN_LOCALE;
        fail_text(answer->status, answer->at,
                  (const uint8_t *)work->texts.bytes + (is_tag ? forms[i]->start : forms[i]->skeleton_start),
                  is_tag ? forms[i]->count : forms[i]->skeleton_count);
        return;
    }
    fail(answer->status, answer->at);
}

/* Raises the error of a converted block: MemoryError, or DecimalError, with the line and the text if a text fails. */
static void fail_block(const Block *block) {
    const fd_column *answer = &block->answer;
    if (answer->status == FD_MEMORY) return (void)PyErr_NoMemory();
    if (answer->status > FD_OVERFLOW) return fail_form(block->work, answer);
    const char *text = block->input.bytes, *end = text + block->input.count;
    for (size_t i = 0; i < answer->lines; i++) text = (const char *)memchr(text, '\n', (size_t)(end - text)) + 1;
    size_t count = (size_t)((const char *)memchr(text, '\n', (size_t)(end - text)) - text);
    fail_text(answer->status, answer->at, (const uint8_t *)text, count);
    set_line((size_t)block->first + answer->lines);
}

/* Appends a line; 0 with an exception. */
static inline int append_line(Buffer *input, const void *bytes, size_t count, Py_ssize_t index) {
    if (memchr(bytes, '\n', count)) return PyErr_Format(PyExc_ValueError, "text %zd has a line feed", index), 0;
    if (!append(input, bytes, count)) return 0;
    input->bytes[input->count++] = '\n';
    return 1;
}

/* Appends the line of a str; 0 with an exception. */
static inline int append_str(Buffer *input, PyObject *text, Py_ssize_t index) {
    Py_ssize_t count;
    const char *bytes = PyUnicode_AsUTF8AndSize(text, &count);
    if (bytes) return append_line(input, bytes, (size_t)count, index);
    if (!PyErr_ExceptionMatches(PyExc_UnicodeEncodeError)) return 0;
    PyErr_Clear();
    fail_str(FD_SYNTAX, 0, text);
    set_line((size_t)index);
    return 0;
}

/* Raises TypeError for the item of a list at an index. */
static void *fail_item(const char *expected, Py_ssize_t index, PyObject *value, const char *advice) {
    char line[80];
    snprintf(line, sizeof line, expected, index);
    return fail_kind(line, value, advice);
}

/* Appends the line of a number, as Decimal() makes it; 0 with an exception. This may run Python code. */
static int append_number(Block *block, PyObject *value, Py_ssize_t index) {
    Buffer *input = &block->input;
    if (block->work->forms.read.count)
        return fail_item("text %zd is read by a locale: it is a str", index, value, ""), 0;
    if (IS_DECIMAL(value)) return append_line(input, ((Decimal *)value)->text, (size_t)Py_SIZE(value), index);
    Py_INCREF(value);
    PyObject *text = text_of_number(value);
    if (!text && !PyErr_Occurred())
        fail_item("text %zd is a str, an int or a Decimal", index, value, advice(value));
    Py_DECREF(value);
    int is_appended = text && append_str(input, text, index);
    Py_XDECREF(text);
    if (!text) set_line((size_t)index);
    return is_appended;
}

/* Makes lines of the next texts of a list; 0 with an exception at the first that is none, which ends the lines. */
static int fill(Block *block, PyObject *list, Py_ssize_t size) {
    Py_ssize_t end = size - block->first < BLOCK_TEXTS ? size : block->first + BLOCK_TEXTS;
    block->input.count = 0;
    for (Py_ssize_t i = block->first; i < end; i++) {
        if (PyList_GET_SIZE(list) != size) return PyErr_SetString(PyExc_RuntimeError, "the list has changed"), 0;
        PyObject *text = PyList_GET_ITEM(list, i);
        if (PyUnicode_Check(text) ? append_str(&block->input, text, i) : append_number(block, text, i)) continue;
        if (block->work->on_error == RAISE || !PyErr_ExceptionMatches(PyExc_ValueError)) return 0;
        /* No decimal is the empty line, so it fails. */
        PyErr_Clear();
        if (!append(&block->input, "\n", 1)) return 0;
    }
    return 1;
}

static const uint8_t *bytes_of(const Buffer *buffer) {
    return buffer->bytes ? (const uint8_t *)buffer->bytes : FD_NONE(uint8_t);
}

/* Converts lines into a buffer that grows: by a formatter, or else by the forms and the calls. */
static fd_column convert_lines(const Work *work, const fd_formatter *formatter, const Buffer *from, Buffer *to) {
    fd_column all = {.status = FD_BUFFER_TOO_SMALL}, answer;
    uint32_t skips = work->on_error != RAISE;
    to->count = 0;
    for (size_t more = from->count + 64; all.status == FD_BUFFER_TOO_SMALL; more *= 2) {
        if (!reserve(to, more)) return (fd_column){.status = FD_MEMORY};
        const uint8_t *lines = bytes_of(from) + all.read;
        uint8_t *buffer = (uint8_t *)to->bytes + to->count;
        size_t count = from->count - all.read, room = to->room - to->count;
        answer = formatter ? fd_format_column(formatter, lines, count, skips, buffer, room)
                           : fd_lines(lines, count, skips, &work->forms, work->calls, work->call_count,
                                      bytes_of(&work->texts), work->texts.count, buffer, room);
        to->count += answer.written;
        all.status = answer.status, all.at = answer.at;
        all.lines += answer.lines, all.read += answer.read;
    }
    return all;
}

/* Converts the lines of a block. It does not use Python. The first line that fails may do so in the calls or in the
 * format: what comes before it in the calls is formatted first. */
static void *convert(void *argument) {
    Block *block = argument;
    const Work *work = block->work;
    const fd_formatter *formatter = work->format ? &((NumberFormat *)work->format)->formatter : NULL;
    int has_calls = work->call_count || work->forms.read.count || work->forms.read.skeleton_count;
    if (!formatter || has_calls)
        block->answer = convert_lines(work, NULL, &block->input, formatter ? &block->called : &block->output);
    if (!formatter || (has_calls && block->answer.status == FD_MEMORY)) return NULL;
    fd_column answer = convert_lines(work, formatter, has_calls ? &block->called : &block->input, &block->output);
    if (answer.status == FD_OVERFLOW) answer.at = work->call_count;
    if (!has_calls || answer.status != FD_OK) block->answer = answer;
    return NULL;
}

/* Begins to convert a block, in another thread unless it is the only one. */
static void start(Block *block, int is_only) {
    int is_running = !is_only && pthread_create(&block->thread, NULL, convert, block) == 0;
    block->state = is_running ? RUNNING : CONVERTED;
    if (is_running) return;
    Py_BEGIN_ALLOW_THREADS
    convert(block);
    Py_END_ALLOW_THREADS
}

/* The result of a text that failed: None, or the item of the list. NULL with an exception. */
static PyObject *failed_result(const Block *block, PyObject *list, Py_ssize_t index) {
    if (block->work->on_error == SKIP) Py_RETURN_NONE;
    if (index < PyList_GET_SIZE(list)) return Py_NewRef(PyList_GET_ITEM(list, index));
    PyErr_SetString(PyExc_RuntimeError, "the list has changed");
    return NULL;
}

/* Puts the results of a converted block into a list; 0 with an exception. Only with a format are they not ASCII. The
 * line of a text that failed is empty. */
static int take_results(const Block *block, PyObject *list, PyObject *made) {
    if (block->answer.status != FD_OK) return fail_block(block), 0;
    const char *bytes = block->output.bytes, *end = bytes + block->output.count;
    int is_ascii = !block->work->forms.format.count && !block->work->format;
    for (Py_ssize_t i = block->first; bytes < end; i++) {
        Py_ssize_t count = (const char *)memchr(bytes, '\n', (size_t)(end - bytes)) - bytes;
        PyObject *text = !count     ? failed_result(block, list, i)
                         : is_ascii ? ascii_str(bytes, count)
                                    : PyUnicode_DecodeUTF8(bytes, count, NULL);
        if (!text) return 0;
        PyList_SET_ITEM(made, i, text);
        bytes += count + 1;
    }
    return 1;
}

/* Waits for a block, and takes its results, if none failed before it. */
static void finish(Block *block, PyObject *list, PyObject **made) {
    if (block->state == RUNNING) {
        Py_BEGIN_ALLOW_THREADS
        pthread_join(block->thread, NULL);
        Py_END_ALLOW_THREADS
    }
    if (block->state != EMPTY && *made && !take_results(block, list, *made)) Py_CLEAR(*made);
    block->state = EMPTY;
}

/* Converts the texts of a list. Each block is filled, begins, and is finished when its turn comes again. */
static PyObject *convert_list(PyObject *list, Block *blocks, size_t count) {
    Py_ssize_t size = PyList_GET_SIZE(list), next = 0;
    PyObject *made = PyList_New(size), *type = NULL, *value = NULL, *trace = NULL;
    size_t turn = 0;
    while (made && !type && (next < size || next == 0)) {
        Block *block = &blocks[turn++ % count];
        finish(block, list, &made);
        if (made && PyErr_CheckSignals() < 0) Py_CLEAR(made);
        if (!made) break;
        block->first = next;
        next += BLOCK_TEXTS;
        /* An exception waits: a text before may fail. */
        if (!fill(block, list, size)) PyErr_Fetch(&type, &value, &trace);
        start(block, size <= BLOCK_TEXTS);
    }
    for (size_t i = 0; i < count; i++) finish(&blocks[turn++ % count], list, &made);
    if (made && type) {
        Py_CLEAR(made);
        PyErr_Restore(type, value, trace);
    } else {
        Py_XDECREF(type), Py_XDECREF(value), Py_XDECREF(trace);
    }
    return made;
}

/* Reads a form: a tag or None, and a skeleton or None. The empty skeleton is passed as white space, since no bytes mean
 * no skeleton. 0 with an exception. */
static int bind_form(Buffer *texts, PyObject *tag, PyObject *skeleton, fd_form *form) {
    const uint8_t *bytes;
    if (tag != Py_None) {
        if (!(bytes = utf8_of(tag, &form->count, "a locale", FD_UNKNOWN_LOCALE))) return 0;
        if (!form->count) return fail(FD_UNKNOWN_LOCALE, 0), 0;
        form->start = texts->count;
        if (!append(texts, bytes, form->count)) return 0;
    }
    if (skeleton == Py_None) return 1;
    if (!(bytes = utf8_of(skeleton, &form->skeleton_count, "a skeleton", FD_SKELETON_SYNTAX))) return 0;
    if (!form->skeleton_count) bytes = (const uint8_t *)" ", form->skeleton_count = 1;
    form->skeleton_start = texts->count;
    return append(texts, bytes, form->skeleton_count);
}

/* Reads the form of the results: a NumberFormat; or a tag or None, and a skeleton or None, or options. 0 with an
 * exception. */
static int bind_results(Work *work, PyObject *format, PyObject *skeleton, PyObject *options) {
    int has_skeleton = skeleton != Py_None, has_options = PyDict_Size(options) > 0;
    if (has_skeleton && has_options) return fail_both("column"), 0;
    if (IS_NUMBER_FORMAT(format)) {
        if (!has_skeleton && !has_options) return work->format = Py_NewRef(format), 1;
        PyErr_SetString(PyExc_TypeError,
                        "column() takes a NumberFormat, or a skeleton or options, not both: a NumberFormat has them");
        return 0;
    }
    if (has_skeleton && !PyUnicode_Check(skeleton)) return fail_type("a skeleton", skeleton), 0;
    if (format == Py_None) return has_skeleton || has_options ? (fail(FD_UNKNOWN_LOCALE, 0), 0) : 1;
    if (has_skeleton || !is_plain(options)) {
        work->format = kept_format(format, has_skeleton ? skeleton : NULL, options);
        return work->format != NULL;
    }
    fd_form *form = &work->forms.format;
    fd_call *call = work->calls + work->call_count;
    size_t count = 0;
    if (has_options && !bind_plain(options, &form->option, call, &count)) return 0;
    work->call_count += count;
    return bind_form(&work->texts, format, Py_None, form);
}

/* Reads the word of a call, as the programs do; 0 with an exception. */
static int bind_call(Work *work, PyObject *word) {
    Py_ssize_t count = 0;
    if (!PyUnicode_Check(word)) return fail_type("a call", word), 0;
    const char *bytes = PyUnicode_AsUTF8AndSize(word, &count);
    if (!bytes && !PyErr_ExceptionMatches(PyExc_UnicodeEncodeError)) return 0;
    if (!bytes) PyErr_Clear();
    fd_word found = {.status = FD_UNKNOWN_CALL};
    if (bytes && !memchr(bytes, 0, (size_t)count)) found = fd_parse_word((const uint8_t *)bytes, (size_t)count);
    if (found.status != FD_OK || found.kind != FD_CALL_WORD)
        return PyErr_Format(PyExc_ValueError, "no such call: %U", word), 0;
    found.call.text_start += work->texts.count;
    if (!append(&work->texts, bytes, (size_t)count)) return 0;
    if (found.call.kind == FD_CONCAT) {
        /* An operand that is no decimal would fail with each text: it is rejected as a word is. */
        uint8_t room[1];
        const uint8_t *texts = (const uint8_t *)work->texts.bytes, zero = '0';
        fd_result tried = fd_run(&zero, 1, &found.call, 1, texts, work->texts.count, room, 0);
        if (tried.status == FD_OPERAND_SYNTAX || tried.status == FD_OPERAND_LIMIT)
            return fail_str(tried.status, work->call_count, word), 0;
    }
    work->calls[work->call_count++] = found.call;
    return 1;
}

/* Converts the texts of a list by blocks, in as many threads as there are processors. */
static PyObject *convert_by_blocks(PyObject *list, const Work *work) {
    Block *blocks = PyMem_Calloc(MOST_BLOCKS, sizeof(Block));
    if (!blocks) return PyErr_NoMemory();
    for (size_t i = 0; i < MOST_BLOCKS; i++) blocks[i].work = work;
    long processors = sysconf(_SC_NPROCESSORS_ONLN);
    size_t count = processors < 1 ? 1 : processors < MOST_BLOCKS ? (size_t)processors + 1 : MOST_BLOCKS;
    PyObject *made = convert_list(list, blocks, count);
    for (size_t i = 0; i < MOST_BLOCKS; i++) {
        PyMem_RawFree(blocks[i].input.bytes);
        PyMem_RawFree(blocks[i].called.bytes);
        PyMem_RawFree(blocks[i].output.bytes);
    }
    PyMem_Free(blocks);
    return made;
}

/* column(list, words of calls, read, read_skeleton, lenient, format, skeleton, errors, options) */
static PyObject *native_column(PyObject *module, PyObject *arguments) {
    PyObject *list, *words, *read, *read_skeleton, *format, *skeleton, *errors, *options, *made = NULL;
    int is_lenient;
    (void)module;
    if (!PyArg_ParseTuple(arguments, "O!O!OOpOOOO!", &PyList_Type, &list, &PyTuple_Type, &words, &read,
                          &read_skeleton, &is_lenient, &format, &skeleton, &errors, &PyDict_Type, &options))
        return NULL;
    int on_error = index_of(on_errors, errors, "handling of errors");
    if (on_error < 0) return NULL;
    Py_ssize_t count = PyTuple_Size(words), at = 0;
    Work work = {.on_error = on_error, .calls = PyMem_Calloc((size_t)count + 1, sizeof(fd_call))};
    if (!work.calls) return PyErr_NoMemory();
    while (at < count && bind_call(&work, PyTuple_GetItem(words, at))) at++;
    work.forms.read.option = is_lenient ? FD_LENIENT : FD_STRICT;
    if (at == count && bind_form(&work.texts, read, read_skeleton, &work.forms.read) &&
        bind_results(&work, format, skeleton, options))
        made = convert_by_blocks(list, &work);
    Py_XDECREF(work.format);
    PyMem_RawFree(work.texts.bytes);
    PyMem_Free(work.calls);
    return made;
}

/* The skeleton of the bytes of options, which has less than 512. */
static PyObject *native_skeleton(PyObject *ignored, PyObject *value) {
    fd_number_options options;
    uint8_t buffer[512];
    (void)ignored;
    if (!options_of(value, &options)) return NULL;
    fd_result answer = fd_skeleton(&options, buffer, sizeof buffer);
    if (answer.status != FD_OK) return fail(answer.status, answer.at);
    return PyUnicode_DecodeUTF8((char *)buffer, (Py_ssize_t)answer.count, NULL);
}

/* The numbers of the unit of a name. */
static PyObject *native_unit(PyObject *ignored, PyObject *name) {
    size_t count;
    (void)ignored;
    const uint8_t *bytes = utf8_of(name, &count, "a unit", FD_UNKNOWN_UNIT);
    if (!bytes) return NULL;
    fd_units units = fd_unit(bytes, count);
    if (units.status != FD_OK) return fail_text(units.status, 0, bytes, count);
    return Py_BuildValue("ii", (int)units.unit, (int)units.per_unit);
}

/* The name of the unit with a number, which has less than 64 bytes. */
static PyObject *native_unit_name(PyObject *ignored, PyObject *value) {
    uint8_t buffer[64];
    (void)ignored;
    unsigned long number = PyLong_AsUnsignedLong(value);
    if (PyErr_Occurred()) return NULL;
    fd_result answer = fd_unit_name(number < UINT32_MAX ? (uint32_t)number : UINT32_MAX, buffer, sizeof buffer);
    if (answer.status != FD_OK) return fail(answer.status, answer.at);
    return PyUnicode_DecodeUTF8((char *)buffer, (Py_ssize_t)answer.count, NULL);
}

/* plural_range(tag, start, end): the category of a range, by those of its numbers. */
static PyObject *native_plural_range(PyObject *ignored, PyObject *arguments) {
    PyObject *tag, *start, *end;
    size_t count;
    (void)ignored;
    if (!PyArg_UnpackTuple(arguments, "plural_range", 3, 3, &tag, &start, &end)) return NULL;
    const uint8_t *bytes = utf8_of(tag, &count, "a locale", FD_UNKNOWN_LOCALE);
    int first = bytes ? index_of(categories, start, "plural category") : -1;
    int second = first < 0 ? -1 : index_of(categories, end, "plural category");
    if (second < 0) return NULL;
    fd_number answer = fd_category_range(bytes, count, (uint32_t)first, (uint32_t)second);
    return answer.status == FD_OK ? PyUnicode_FromString(categories[answer.value])
                                  : fail_text(answer.status, answer.at, bytes, count);
}

PyDoc_STRVAR(round_text, "round($self, /, position, mode='half-even', increment=1)\n--\n\n"
"Rounds as decimal's quantize does: d.round(-2) keeps two decimals, as d.quantize(decimal.Decimal('0.01')).\n\n"
"The result is a multiple of increment * 10^position. The increment is 1, 2, 5 or 25.\n\n"
">>> Decimal('1234.565').round(-2)\nDecimal('1234.56')\n"
">>> Decimal('1234.565').round(-2, 'half-expand')\nDecimal('1234.57')\n"
">>> Decimal('113').round(0, increment=25)\nDecimal('125')\n");
PyDoc_STRVAR(shift_text, "shift($self, power, /)\n--\n\n"
"Multiplies by a power of ten.\n\n"
">>> Decimal('250').shift(-2)\nDecimal('2.50')\n");
PyDoc_STRVAR(trim_text, "trim($self, /)\n--\n\n"
"Removes leading zeros, and trailing zeros of the fraction.\n\n"
">>> Decimal('007.50').trim()\nDecimal('7.5')\n");
PyDoc_STRVAR(pad_text, "pad($self, /, start=..., end=...)\n--\n\n"
"Shows zeros below the position start, and down to the position end. On a side without a position the zeros stay.\n\n"
">>> Decimal('42').pad(4, -2)\nDecimal('0042.00')\n");
PyDoc_STRVAR(sign_text, "sign($self, display, /)\n--\n\n"
"Sets the sign that a display shows: auto, never, always, except-zero or negative.\n\n"
">>> Decimal('5').sign('always')\nDecimal('+5')\n");
PyDoc_STRVAR(with_sign_text, "with_sign($self, sign, /)\n--\n\n"
"Sets the sign: none, minus or plus. The method sign sets it by a display.\n\n"
">>> Decimal('5').with_sign('minus')\nDecimal('-5')\n");
PyDoc_STRVAR(as_decimal_text, "as_decimal($self, /)\n--\n\n"
"Returns the decimal.Decimal of the same number, with its trailing zeros.\n\n"
">>> Decimal('007.50').as_decimal()\nDecimal('7.50')\n"
">>> type(Decimal('007.50').as_decimal())\n<class 'decimal.Decimal'>\n");
PyDoc_STRVAR(dunder_round_text, "__round__($self, ndigits=None, /)\n--\n\n"
"Rounds to a number of decimals, half-even as decimal.Decimal does; without one, to an int.\n\n"
">>> round(Decimal('2.345'), 2), round(Decimal('5'), 2)\n(Decimal('2.34'), Decimal('5.00'))\n"
">>> round(Decimal('2.5'))\n2\n");
PyDoc_STRVAR(compare_text, "compare($self, other, /)\n--\n\n"
"Returns the order of two numbers: -1, 0 or 1.\n\n"
">>> Decimal('1.0').compare(Decimal('1'))\n0\n");
PyDoc_STRVAR(format_text, "format($self, /, locale, grouping='auto', *, skeleton=None, **options)\n--\n\n"
"Returns the text in the form of a locale.\n\n"
">>> Decimal('1234567.50').format('de')\n'1.234.567,50'\n"
">>> Decimal('1234567.50').format('de', grouping='never')\n'1234567,50'\n\n"
"A skeleton is a number skeleton of ICU:\n\n"
">>> Decimal('-1234.5').format('es', skeleton='KK')\n'-1,2 mil'\n\n"
"Options have the names, the words and the defaults of Intl.NumberFormat (ECMA-402), so at most three fraction\n"
"digits are shown. The NumberFormat that they make is kept for the next calls:\n\n"
">>> Decimal('0.12345').format('de', style='decimal')\n'0,123'\n"
">>> Decimal('0.12345').format('de', maximum_fraction_digits=4)\n'0,1235'\n\n"
"With no options but use_grouping and sign_display all digits and zeros stay, as without options:\n\n"
">>> Decimal('1234.56780').format('de', use_grouping=False, sign_display='always')\n'+1234,56780'\n");
PyDoc_STRVAR(read_text, "read(text, locale, *, skeleton=None, lenient=False, **options)\n--\n\n"
"Reads a number as format() writes it by these arguments; or, if lenient, as people type it.\n\n"
">>> Decimal.read('1.234,50', 'de')\nDecimal('1234.50')\n"
">>> Decimal.read('EUR 1.234,5', 'de', style='currency', currency='EUR', lenient=True)\nDecimal('1234.5')\n");
PyDoc_STRVAR(plural_text, "plural($self, locale_or_rules, /)\n--\n\n"
"Returns the plural category by a locale, or by rules in CLDR's syntax.\n\n"
">>> Decimal('2').plural('ru'), Decimal('22').plural('en:ordinal')\n('few', 'two')\n"
">>> Decimal('1.0').plural('one: i = 1 and v = 0')\n'other'\n");
PyDoc_STRVAR(dunder_format_text, "__format__($self, specification, /)\n--\n\n"
"Pads the text if the specification has only a fill, an alignment and a width; otherwise formats as\n"
"decimal.Decimal does.\n\n"
">>> f\"{Decimal('007.50'):>8}\"\n'  007.50'\n"
">>> f\"{Decimal('-7.50'):0=8}\"\n'-0007.50'\n"
">>> f\"{Decimal('1234.565'):,.2f}\"\n'1,234.56'\n");
PyDoc_STRVAR(class_text, "Decimal(value='0', /)\n--\n\n"
"An immutable decimal, with its zeros as written. It is made from a str, an int or a decimal.Decimal.\n\n"
">>> Decimal('007.50')\nDecimal('007.50')\n"
">>> Decimal('1.0') == Decimal('1'), Decimal('1.0') <= Decimal('1')\n(False, True)\n\n"
"As with decimal.Decimal, a zero is false, int() drops the fraction, and -d of a zero has no minus. What quantize\n"
"does there is round: d.round(-2) keeps two decimals.\n\n"
">>> bool(Decimal('0.00')), int(Decimal('-7.9')), -Decimal('7.50'), abs(Decimal('-7.50'))\n"
"(False, -7, Decimal('-7.50'), Decimal('7.50'))\n");

#define FUNCTION(name) ((PyCFunction)(void (*)(void))(name))
static PyMethodDef decimal_methods[] = {
    {"round", FUNCTION(decimal_round), METH_FASTCALL | METH_KEYWORDS, round_text},
    {"shift", FUNCTION(decimal_shift), METH_O, shift_text},
    {"trim", FUNCTION(decimal_trim), METH_NOARGS, trim_text},
    {"pad", FUNCTION(decimal_pad), METH_VARARGS | METH_KEYWORDS, pad_text},
    {"sign", FUNCTION(decimal_sign), METH_O, sign_text},
    {"with_sign", FUNCTION(decimal_with_sign), METH_O, with_sign_text},
    {"as_decimal", FUNCTION(decimal_as_decimal), METH_NOARGS, as_decimal_text},
    {"__round__", FUNCTION(decimal_dunder_round), METH_FASTCALL, dunder_round_text},
    {"compare", FUNCTION(decimal_compare), METH_O, compare_text},
    {"format", FUNCTION(decimal_format), METH_FASTCALL | METH_KEYWORDS, format_text},
    {"read", FUNCTION(decimal_read), METH_STATIC | METH_FASTCALL | METH_KEYWORDS, read_text},
    {"plural", FUNCTION(decimal_plural), METH_O, plural_text},
    {"__format__", FUNCTION(decimal_dunder_format), METH_O, dunder_format_text},
    {"__reduce__", FUNCTION(decimal_reduce), METH_NOARGS, NULL},
    {NULL, NULL, 0, NULL}};

static PyType_Slot decimal_slots[] = {
    {Py_tp_doc, (void *)class_text},
    {Py_tp_new, decimal_new},
    {Py_tp_dealloc, dealloc},
    {Py_tp_str, decimal_str},
    {Py_tp_repr, decimal_repr},
    {Py_tp_hash, decimal_hash},
    {Py_tp_richcompare, decimal_richcompare},
    {Py_tp_methods, decimal_methods},
    {Py_nb_negative, decimal_negative},
    {Py_nb_absolute, decimal_absolute},
    {Py_nb_bool, decimal_bool},
    {Py_nb_int, decimal_int},
    {0, NULL}};
static PyType_Spec decimal_spec = {.name = "fixed_decimal.Decimal", .basicsize = sizeof(Decimal), .itemsize = 1,
                                   .flags = Py_TPFLAGS_DEFAULT | Py_TPFLAGS_IMMUTABLETYPE, .slots = decimal_slots};

PyDoc_STRVAR(number_format_text, "NumberFormat(locale, *, skeleton=None, **options)\n--\n\n"
"How a locale writes numbers, as Intl.NumberFormat of ECMA-402: made once, and used for many numbers.\n\n"
">>> euros = NumberFormat('de', style='currency', currency='EUR')\n"
">>> euros.format('1234.5'), euros.format(Decimal('-0.005'))\n('1.234,50\\xa0€', '-0,01\\xa0€')\n\n"
"Options have the names, the words and the defaults of ECMA-402: without any, at most three fraction digits are\n"
"shown. A skeleton is a number skeleton of ICU, and has all options:\n\n"
">>> NumberFormat('en').format('1234.5678'), NumberFormat('es', skeleton='KK').format(-1234)\n"
"('1,234.568', '-1,2 mil')\n\n"
"It is immutable. Two are equal if their locales are, and their skeletons, or their options with the defaults:\n\n"
">>> NumberFormat('en', sign_display='auto') == NumberFormat('en')\nTrue\n");
PyDoc_STRVAR(number_format_format_text, "format($self, number, /)\n--\n\n"
"Returns the text of a number: a str, an int, a Decimal or a decimal.Decimal.\n\n"
">>> NumberFormat('en', notation='compact').format(1234567)\n'1.2M'\n");
PyDoc_STRVAR(number_format_parts_text, "format_to_parts($self, number, /)\n--\n\n"
"Returns the parts of the text in order, with the types of formatToParts in ECMA-402.\n\n"
">>> [part['type'] for part in NumberFormat('en', style='percent').format_to_parts('-0.5')]\n"
"['minusSign', 'integer', 'percentSign']\n"
">>> NumberFormat('en').format_to_parts(12)\n[{'type': 'integer', 'value': '12'}]\n");
PyDoc_STRVAR(number_format_range_text, "format_range($self, start, end, /)\n--\n\n"
"Returns the text of the range of two numbers, as formatRange of ECMA-402 does. Numbers that are equal or shown alike\n"
"are one approximate number. The first may be above the second.\n\n"
">>> NumberFormat('en', style='unit', unit='day', unit_display='long').format_range(1, 2)\n'1–2 days'\n"
">>> NumberFormat('en').format_range(1, '1.0001')\n'~1'\n");
PyDoc_STRVAR(number_format_range_parts_text, "format_range_to_parts($self, start, end, /)\n--\n\n"
"Returns the parts of the text of a range in order, with the types and the sources of formatRangeToParts in "
"ECMA-402.\n\n"
">>> [(part['value'], part['source']) for part in NumberFormat('en').format_range_to_parts(1, 2)]\n"
"[('1', 'startRange'), ('–', 'shared'), ('2', 'endRange')]\n");
PyDoc_STRVAR(number_format_read_text, "read($self, /, text, lenient=False)\n--\n\n"
"Reads a number as format() writes it; or, if lenient, as people type it.\n\n"
">>> euros = NumberFormat('de', style='currency', currency='EUR')\n"
">>> euros.read('-1.234,50\\xa0€'), euros.read('EUR 1.234,5', lenient=True)\n"
"(Decimal('-1234.50'), Decimal('1234.5'))\n");
PyDoc_STRVAR(number_format_options_text, "resolved_options($self, /)\n--\n\n"
"Returns a dictionary of the locale as it was passed, and of all options with their defaults. Options that only a\n"
"skeleton has are in it if they are not the default.\n\n"
">>> found = NumberFormat('hi-u-nu-deva', style='currency', currency='JPY').resolved_options()\n"
">>> found['numbering_system'], found['maximum_fraction_digits'], found['rounding_mode']\n"
"('deva', 0, 'half-expand')\n");

static PyMethodDef number_format_methods[] = {
    {"format", FUNCTION(number_format_format), METH_O, number_format_format_text},
    {"format_to_parts", FUNCTION(number_format_format_to_parts), METH_O, number_format_parts_text},
    {"format_range", FUNCTION(number_format_format_range), METH_FASTCALL, number_format_range_text},
    {"format_range_to_parts", FUNCTION(number_format_format_range_to_parts), METH_FASTCALL,
     number_format_range_parts_text},
    {"read", FUNCTION(number_format_read), METH_FASTCALL | METH_KEYWORDS, number_format_read_text},
    {"resolved_options", FUNCTION(number_format_resolved_options), METH_NOARGS, number_format_options_text},
    {"__reduce__", FUNCTION(number_format_reduce), METH_NOARGS, NULL},
    {NULL, NULL, 0, NULL}};

static PyType_Slot number_format_slots[] = {
    {Py_tp_doc, (void *)number_format_text},
    {Py_tp_new, number_format_new},
    {Py_tp_dealloc, number_format_dealloc},
    {Py_tp_repr, number_format_repr},
    {Py_tp_hash, number_format_hash},
    {Py_tp_richcompare, number_format_richcompare},
    {Py_tp_methods, number_format_methods},
    {0, NULL}};
static PyType_Spec number_format_spec = {.name = "fixed_decimal.NumberFormat", .basicsize = sizeof(NumberFormat),
                                         .flags = Py_TPFLAGS_DEFAULT | Py_TPFLAGS_IMMUTABLETYPE,
                                         .slots = number_format_slots};

static PyMethodDef functions[] = {{"column", native_column, METH_VARARGS, NULL},
                                  {"plural_range", native_plural_range, METH_VARARGS, NULL},
                                  {"skeleton", native_skeleton, METH_O, NULL},
                                  {"unit", native_unit, METH_O, NULL},
                                  {"unit_name", native_unit_name, METH_O, NULL}, {NULL, NULL, 0, NULL}};
/* The module has one state for the process, so it is for the main interpreter alone. */
static int execute(PyObject *module) {
    if (fd_version() != FD_VERSION) return PyErr_SetString(PyExc_ImportError, "the library has another version"), -1;
    if (PyInterpreterState_GetID(PyInterpreterState_Get()) != 0)
        return PyErr_SetString(PyExc_ImportError, "fixed_decimal is not for subinterpreters"), -1;
    PyObject *error = NULL, *before = decimal_error;
    if (!imported(&error, "fixed_decimal._errors", "DecimalError")) return -1;
    decimal_error = error;
    Py_XDECREF(before);
    if (!decimal_type && !(decimal_type = (PyTypeObject *)PyType_FromSpec(&decimal_spec))) return -1;
    if (!number_format_type && !(number_format_type = (PyTypeObject *)PyType_FromSpec(&number_format_spec))) return -1;
#ifndef Py_LIMITED_API
    decimal_type->tp_vectorcall = decimal_vectorcall;
#endif
    if (PyModule_AddType(module, decimal_type) < 0 || PyModule_AddType(module, number_format_type) < 0) return -1;
    return PyModule_AddStringConstant(module, "__version__", FIXED_DECIMAL_VERSION);
}

static PyModuleDef_Slot slots[] = {{Py_mod_exec, execute}, {0, NULL}};
static PyModuleDef definition = {PyModuleDef_HEAD_INIT, .m_name = "fixed_decimal._native", .m_methods = functions,
                                 .m_slots = slots};

PyMODINIT_FUNC PyInit__native(void) {
    return PyModuleDef_Init(&definition);
}
