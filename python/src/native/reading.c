/* Reads one text or number: as nanoseconds, as seconds, or as a timedelta */
#include "module.h"

/* From this number on a float can have lost digits of the number that it was made of. */
#define INEXACT 9007199254740992.0

/* Reads the text of a str, whatever a subclass says that it holds. Returns 1 if the text is read,
 * 0 if it is refused, and -1 with an error. */
int read_str(PyObject *given, const struct reading *reading, uint64_t *nanos) {
    Py_ssize_t length;
    const char *bytes = PyUnicode_AsUTF8AndSize(given, &length);
    if (!bytes && !PyErr_ExceptionMatches(PyExc_UnicodeEncodeError))
        return -1;
    if (!bytes) {
        PyErr_Clear();
        return 0;
    }
    struct duration_str_answer answer;
    const uint32_t options = reading->options;
    /* The call without options is faster, but doesn't say why it refuses a text. */
    const bool is_read = options ? duration_str_parse_with(bytes, (size_t)length, options, &answer)
                                 : duration_str_parse(bytes, (size_t)length, nanos);
    if (is_read && options)
        *nanos = answer.nanos;
    return is_read && !(reading->in_timedelta64 && *nanos > INT64_MAX);
}

/* The text that the library is given for a number, such as its digits. Returns NULL without an
 * error for a value that is not taken for a number, such as a bool. */
PyObject *digits_of(struct state *state, PyObject *value) {
    PyObject *number = NULL, *digits = NULL;
    if (PyBool_Check(value))
        return NULL;
    if (PyLong_Check(value)) {
        number = Py_NewRef(value);
    } else if (PyFloat_Check(value)) {
        const double given = PyFloat_AsDouble(value);
        /* NaN is not below anything. */
        const bool is_below = given < INEXACT;
        const bool is_whole = is_below && given > -INEXACT && given == (double)(int64_t)given;
        if (is_below)
            number = is_whole ? PyLong_FromDouble(given) : PyFloat_FromDouble(given);
    } else if (PyIndex_Check(value)) {
        number = PyObject_CallFunctionObjArgs(state->kept[WHOLE_OF], value, NULL);
    }
    if (number && PyFloat_Check(number))
        digits = PyObject_Repr(number);
    else if (number && !Py_IsNone(number))
        digits = PyNumber_ToBase(number, 10);
    Py_XDECREF(number);
    return digits;
}

static int read_call(struct state *state, const char *call, PyObject *const *arguments,
    Py_ssize_t count, PyObject *keywords, uint64_t *nanos) {
    struct reading reading = {.options = 0};
    if (!has_one(call, count))
        return -1;
    if (keywords && take_options(state, call, arguments + 1, keywords, &reading))
        return -1;
    PyObject *text = text_given(state, arguments[0], &reading);
    if (!text && !PyErr_Occurred())
        raise_type_error(state, arguments[0], &reading, -1);
    if (!text)
        return -1;
    const int is_read = read_str(text, &reading, nanos);
    if (!is_read)
        raise_made(error_of(state, text, &reading, -1, false));
    Py_DECREF(text);
    return is_read == 1 ? 0 : -1;
}

PyObject *module_parse_ns(
    PyObject *module, PyObject *const *arguments, Py_ssize_t count, PyObject *keywords) {
    uint64_t nanos;
    if (read_call(PyModule_GetState(module), "parse_ns", arguments, count, keywords, &nanos))
        return NULL;
    return PyLong_FromUnsignedLongLong(nanos);
}

/* A duration is a number whose digits count these microseconds. All its digits are below RADIX if
 * it is below 2^64 nanoseconds. */
static const uint64_t counted[DIGITS] = {
    86400000000000, /* thousands of days */
    86400000000,    /* days */
    300000000,      /* times five minutes */
    1000000,        /* seconds */
    1000,           /* milliseconds */
    1,              /* microseconds */
};

/* Returns the timedelta of a digit, which the state keeps and owns. If the module datetime is the
 * one in Python, other threads can run while a timedelta is made, and one of them may keep its own
 * first. */
static PyObject *term_of(struct state *state, int place, uint64_t digit) {
    PyObject **term = &state->terms[place][digit];
    if (*term)
        return *term;
    PyObject *micros = PyLong_FromUnsignedLongLong(digit * counted[place]);
    PyObject *made = micros ? PyNumber_Multiply(state->kept[A_MICROSECOND], micros) : NULL;
    Py_XDECREF(micros);
    if (!made)
        return NULL;
    if (*term)
        Py_DECREF(made);
    else
        *term = made;
    return *term;
}

/* The timedelta of nanoseconds, rounded down to microseconds. It is the sum of its digits' terms.
 * Adding takes far less time than multiplying, and than calling the constructor. */
static PyObject *timedelta_of(struct state *state, uint64_t nanos) {
    const uint64_t micros = nanos / 1000, secs = nanos / SECOND, days = secs / 86400;
    const uint64_t digits[DIGITS] = {days / RADIX, days % RADIX, secs % 86400 / 300, secs % 300,
        micros / 1000 % 1000, micros % 1000};
    PyObject *sum = NULL;
    for (int place = 0; place < DIGITS; place++) {
        /* If all digits are 0, the last one has a term. */
        if (!digits[place] && (sum || place < DIGITS - 1))
            continue;
        PyObject *term = term_of(state, place, digits[place]), *more = NULL;
        if (term)
            more = sum ? PyNumber_Add(sum, term) : Py_NewRef(term);
        Py_XDECREF(sum);
        if (!more)
            return NULL;
        sum = more;
    }
    return sum;
}

PyObject *module_parse(
    PyObject *module, PyObject *const *arguments, Py_ssize_t count, PyObject *keywords) {
    struct state *state = PyModule_GetState(module);
    uint64_t nanos;
    if (read_call(state, "parse", arguments, count, keywords, &nanos))
        return NULL;
    return timedelta_of(state, nanos);
}

PyObject *module_parse_seconds(
    PyObject *module, PyObject *const *arguments, Py_ssize_t count, PyObject *keywords) {
    struct state *state = PyModule_GetState(module);
    uint64_t nanos;
    if (read_call(state, "parse_seconds", arguments, count, keywords, &nanos))
        return NULL;
    PyObject *number = PyLong_FromUnsignedLongLong(nanos);
    PyObject *seconds = number ? PyNumber_TrueDivide(number, state->kept[A_SECOND]) : NULL;
    Py_XDECREF(number);
    return seconds;
}
