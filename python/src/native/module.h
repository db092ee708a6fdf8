/* What the files of the extension module `_native` share. The module calls the library for C. It
 * uses the limited API, so that one build serves CPython from 3.11 on. Up to CPython 3.14,
 * interpreters without a global lock have no such API. When such an interpreter loads the module,
 * it turns a lock on, unless a user forbids it. */
#ifndef DURATION_STR_MODULE_H
#define DURATION_STR_MODULE_H

#ifndef Py_GIL_DISABLED
#define Py_LIMITED_API 0x030b0000
#endif
#define PY_SSIZE_T_CLEAN
#include <Python.h>
#include <duration_str.h>

/* The headers of CPython 3.11 count references inline. From 3.12 on, None and other objects are
 * immortal, so their counts must not change. The functions of the running interpreter know such
 * objects. */
#if PY_VERSION_HEX < 0x030c0000
#undef Py_NewRef
#undef Py_INCREF
#undef Py_DECREF
#undef Py_XDECREF
#define Py_INCREF Py_IncRef
#define Py_DECREF Py_DecRef
#define Py_XDECREF Py_DecRef
#endif

/* The module exports only PyInit__native. */
#if defined(__GNUC__)
#pragma GCC visibility push(hidden)
#endif

#define SECOND 1000000000u

/* The Python objects that the module keeps. Those before DEFAULT_UNIT are names of flags, in the
 * order of their bits. */
enum kept {
    NO_CALC,
    LOWERCASE,
    CN_UNIT,
    REQUIRE_UNIT,
    MORE_NAMES,
    DEFAULT_UNIT,
    PARTS,
    UNITS,
    LARGEST,
    SMALLEST,
    ROUNDING,
    STYLE,
    DAYS,
    SECONDS,
    MICROSECONDS,
    ERROR,
    TYPE_ERROR_OF,
    NANOS_OF,
    WHOLE_OF,
    UNNAMED,
    UNSAID,
    TIMEDELTA,
    A_MICROSECOND,
    A_SECOND,
    UNIT_NAMES,
    PART = UNIT_NAMES + DURATION_STR_UNIT_NANOSECOND + 1,
    BREAKDOWN,
    KEPT
};

/* A timedelta is the sum of those of its digits, whose values are below RADIX. */
#define DIGITS 6
#define RADIX 1000

struct state {
    PyObject *kept[KEPT];
    PyObject *terms[DIGITS][RADIX]; /* timedeltas of the digits that were needed until now */
};

/* module.c */

PyObject *member(const char *module, const char *name);

/* After this many values of a column, other threads may run, and a signal may end the call. */
#define A_TURN 4096

int end_turn(void);

/* options.c */

struct reading {
    uint32_t options;
    int takes_numbers;   /* whether a whole number that is not a text is read */
    bool in_timedelta64; /* whether durations of 2^63 nanoseconds or more are refused */
};

int name_of(struct state *state, const char *call, PyObject *keyword, int first, int last);
void raise_count(const char *call, Py_ssize_t count);
void raise_name(PyObject *name, const char *keyword, const char *listed);
int unit_of(struct state *state, PyObject *name, const char *keyword);
int take_options(struct state *state, const char *call, PyObject *const *values, PyObject *keywords,
    struct reading *reading);
PyObject *module_reading(
    PyObject *module, PyObject *const *arguments, Py_ssize_t count, PyObject *keywords);

static inline bool has_one(const char *call, Py_ssize_t count) {
    if (count != 1)
        raise_count(call, count);
    return count == 1;
}

/* errors.c */

PyObject *error_of(struct state *state, PyObject *given, const struct reading *reading,
    Py_ssize_t index, bool names_index);
void raise_made(PyObject *error);
void raise_type_error(
    struct state *state, PyObject *value, const struct reading *reading, Py_ssize_t index);
PyObject *module_answer(PyObject *module, PyObject *arguments);
PyObject *module_reason(PyObject *module, PyObject *arguments);
PyObject *module_report(PyObject *module, PyObject *arguments);
PyObject *module_help(PyObject *module, PyObject *arguments);
PyObject *module_mended(PyObject *module, PyObject *arguments);

/* reading.c */

PyObject *digits_of(struct state *state, PyObject *value);
int read_str(PyObject *given, const struct reading *reading, uint64_t *nanos);
PyObject *module_parse_ns(
    PyObject *module, PyObject *const *arguments, Py_ssize_t count, PyObject *keywords);
PyObject *module_parse(
    PyObject *module, PyObject *const *arguments, Py_ssize_t count, PyObject *keywords);
PyObject *module_parse_seconds(
    PyObject *module, PyObject *const *arguments, Py_ssize_t count, PyObject *keywords);

/* Returns NULL without an error if the value has no text. */
static inline PyObject *text_given(
    struct state *state, PyObject *value, const struct reading *reading) {
    if (PyUnicode_CheckExact(value) || PyUnicode_Check(value))
        return Py_NewRef(value);
    return reading->takes_numbers ? digits_of(state, value) : NULL;
}

/* limits.c */

struct limits {
    uint32_t units; /* a set of units */
    uint32_t parts;
    uint32_t rounding;
    uint32_t style;
};

static const struct limits no_limits = {DURATION_STR_UNITS_ALL, DURATION_STR_UNIT_NANOSECOND + 1,
    DURATION_STR_ROUNDING_NONE, DURATION_STR_STYLE_SHORT};

int take_limits(struct state *state, const char *call, int last, PyObject *const *values,
    PyObject *keywords, struct limits *limits);
PyObject *module_limits(
    PyObject *module, PyObject *const *arguments, Py_ssize_t count, PyObject *keywords);

/* printing.c */

int parts_of(struct state *state, PyObject *value, long *parts);
PyObject *module_format(
    PyObject *module, PyObject *const *arguments, Py_ssize_t count, PyObject *keywords);
PyObject *module_breakdown(
    PyObject *module, PyObject *const *arguments, Py_ssize_t count, PyObject *keywords);
PyObject *module_format_list(PyObject *module, PyObject *arguments);

/* columns.c */

PyObject *module_read_list(PyObject *module, PyObject *arguments);

#if defined(__GNUC__)
#pragma GCC visibility pop
#endif
#endif
