/* Prints durations, and breaks them down. */
#include "module.h"
#include <string.h>

/* `nanos` is below a second. */
struct duration {
    uint64_t secs;
    uint32_t nanos;
};

static inline int take_int(struct state *state, PyObject *value, struct duration *duration) {
    int overflow;
    const long long few = PyLong_AsLongLongAndOverflow(value, &overflow);
    if (overflow < 0) {
        /* Python can refuse to print an int of some thousand digits. */
        PyErr_SetString(PyExc_ValueError, "the duration is negative: below -2**63 nanoseconds");
        return -1;
    }
    if (!overflow && few < 0) {
        PyErr_Format(PyExc_ValueError, "the duration is negative: %R", value);
        return -1;
    }
    if (!overflow) {
        duration->secs = (uint64_t)few / SECOND;
        duration->nanos = (uint32_t)((uint64_t)few % SECOND);
        return 0;
    }
    PyObject *both = PyNumber_Divmod(value, state->kept[A_SECOND]);
    if (!both)
        return -1;
    duration->secs = PyLong_AsUnsignedLongLong(PyTuple_GetItem(both, 0));
    duration->nanos = (uint32_t)PyLong_AsUnsignedLong(PyTuple_GetItem(both, 1));
    Py_DECREF(both);
    if (!PyErr_Occurred())
        return 0;
    PyErr_SetString(PyExc_OverflowError, "the duration is 2**64 seconds or more");
    return -1;
}

/* Gets the days, seconds and microseconds of a value whose type is exactly timedelta. */
int parts_of(struct state *state, PyObject *value, long *parts) {
    for (int part = 0; part < 3; part++) {
        PyObject *number = PyObject_GetAttr(value, state->kept[DAYS + part]);
        parts[part] = number ? PyLong_AsLong(number) : -1;
        Py_XDECREF(number);
    }
    return PyErr_Occurred() ? -1 : 0;
}

static int take_timedelta(struct state *state, PyObject *value, struct duration *duration) {
    long parts[3];
    if (parts_of(state, value, parts))
        return -1;
    if (parts[0] < 0) {
        PyErr_Format(PyExc_ValueError, "the duration is negative: %R", value);
        return -1;
    }
    duration->secs = (uint64_t)parts[0] * 86400 + (uint64_t)parts[1];
    duration->nanos = (uint32_t)parts[2] * 1000;
    return 0;
}

/* Returns 1 if the duration is taken, and -1 with an error. `function` is called for a value whose
 * type is neither int nor timedelta. If it returns None, the value is missing, and 0 is returned.
 */
static inline int take_duration(
    struct state *state, PyObject *value, PyObject *function, struct duration *duration) {
    if (PyLong_CheckExact(value))
        return take_int(state, value, duration) ? -1 : 1;
    if (Py_IS_TYPE(value, (PyTypeObject *)state->kept[TIMEDELTA]))
        return take_timedelta(state, value, duration) ? -1 : 1;
    PyObject *nanos = PyObject_CallFunctionObjArgs(function, value, NULL);
    if (!nanos)
        return -1;
    const bool is_missing = Py_IsNone(nanos);
    const bool failed = !is_missing && take_int(state, nanos, duration);
    Py_DECREF(nanos);
    return failed ? -1 : !is_missing;
}

static void raise_too_long(void) {
    PyErr_SetString(
        PyExc_ValueError, "no duration below 2**64 seconds is long enough for rounding='up'");
}

/* The call without limits is faster, but takes only durations below 2^64 nanoseconds. Returns NULL
 * with an error if there is nothing to round up to. */
static PyObject *text_of(const struct duration *duration, const struct limits *limits) {
    char buffer[DURATION_STR_FORMAT_WITH_BUFFER_SIZE];
    const bool is_whole = !memcmp(limits, &no_limits, sizeof *limits);
    const size_t length =
        is_whole && duration->secs < UINT64_MAX / SECOND
            ? duration_str_format(duration->secs * SECOND + duration->nanos, buffer)
            : duration_str_format_with(duration->secs, duration->nanos, limits->units,
                  limits->parts, limits->rounding, limits->style, buffer);
    if (!length)
        raise_too_long();
    return length ? PyUnicode_FromStringAndSize(buffer, (Py_ssize_t)length) : NULL;
}

static inline PyObject *text_of_value(
    struct state *state, PyObject *value, PyObject *function, const struct limits *limits) {
    struct duration duration;
    const int is_there = take_duration(state, value, function, &duration);
    if (!is_there)
        return Py_NewRef(Py_None);
    return is_there < 0 ? NULL : text_of(&duration, limits);
}

PyObject *module_format(
    PyObject *module, PyObject *const *arguments, Py_ssize_t count, PyObject *keywords) {
    struct state *state = PyModule_GetState(module);
    struct limits limits;
    if (!has_one("format", count))
        return NULL;
    if (take_limits(state, "format", STYLE, arguments + 1, keywords, &limits))
        return NULL;
    return text_of_value(state, arguments[0], state->kept[NANOS_OF], &limits);
}

/* format_list(values, function, texts, limits): appends the text of each value, or None if the
 * value is missing, to `texts`. If `texts` isn't empty, it begins with the value at the position
 * that is their number. After an error of a value, the length of `texts` is the value's position.
 */
PyObject *module_format_list(PyObject *module, PyObject *arguments) {
    PyObject *values, *function, *texts;
    struct limits limits;
    if (!PyArg_ParseTuple(arguments, "O!OO!(IIII)", &PyList_Type, &values, &function, &PyList_Type,
            &texts, &limits.units, &limits.parts, &limits.rounding, &limits.style))
        return NULL;
    for (Py_ssize_t at = PyList_Size(texts); at < PyList_Size(values); at++) {
        PyObject *value = Py_NewRef(PyList_GetItem(values, at));
        PyObject *text = text_of_value(PyModule_GetState(module), value, function, &limits);
        const int failed = !text || PyList_Append(texts, text);
        Py_DECREF(value);
        Py_XDECREF(text);
        if (failed || ((at + 1) % A_TURN == 0 && end_turn()))
            return NULL;
    }
    Py_RETURN_NONE;
}

/* Keeps a type of the package. While it is taken, another thread may keep it, too. */
static int keep_type(struct state *state, enum kept at, const char *name) {
    if (state->kept[at])
        return 0;
    PyObject *taken = member("duration_str._parts", name);
    if (taken && !state->kept[at])
        state->kept[at] = Py_NewRef(taken);
    Py_XDECREF(taken);
    return taken ? 0 : -1;
}

/* Takes over the reference to the items, which are a tuple. The type's own constructor is a
 * function in Python, and takes longer. */
static PyObject *named_tuple(PyObject *type, PyObject *items) {
    const newfunc new_tuple = (newfunc)(uintptr_t)PyType_GetSlot(&PyTuple_Type, Py_tp_new);
    PyObject *arguments = items ? PyTuple_Pack(1, items) : NULL;
    PyObject *made = arguments ? new_tuple((PyTypeObject *)type, arguments, NULL) : NULL;
    Py_XDECREF(arguments);
    Py_XDECREF(items);
    return made;
}

static PyObject *list_of_parts(struct state *state, const uint64_t *counts) {
    PyObject *parts = PyList_New(0);
    for (int unit = 0; parts && unit < DURATION_STR_UNIT_COUNT; unit++) {
        if (!counts[unit])
            continue;
        PyObject *part =
            named_tuple(state->kept[PART], Py_BuildValue("(KO)", (unsigned long long)counts[unit],
                                               state->kept[UNIT_NAMES + unit]));
        if (!part || PyList_Append(parts, part))
            Py_CLEAR(parts);
        Py_XDECREF(part);
    }
    return parts;
}

static PyObject *breakdown_of(
    struct state *state, const struct duration *duration, const struct limits *limits) {
    uint64_t counts[DURATION_STR_UNIT_COUNT], rest;
    if (!duration_str_breakdown(duration->secs, duration->nanos, limits->units, limits->parts,
            limits->rounding, counts, &rest)) {
        /* If there is a unit of a second or longer, each count is below 2^64. If there is none, and
         * nothing is long enough to round up to, a count is 2^64 or more, too. */
        if (limits->units &
            DURATION_STR_UNITS_BETWEEN(DURATION_STR_UNIT_YEAR, DURATION_STR_UNIT_SECOND))
            raise_too_long();
        else
            PyErr_SetString(PyExc_OverflowError, "a count is 2**64 or more: choose a longer unit");
        return NULL;
    }
    PyObject *list = list_of_parts(state, counts);
    PyObject *parts = list ? PyList_AsTuple(list) : NULL;
    Py_XDECREF(list);
    if (!parts)
        return NULL;
    return named_tuple(
        state->kept[BREAKDOWN], Py_BuildValue("(NK)", parts, (unsigned long long)rest));
}

PyObject *module_breakdown(
    PyObject *module, PyObject *const *arguments, Py_ssize_t count, PyObject *keywords) {
    struct state *state = PyModule_GetState(module);
    struct limits limits;
    struct duration duration;
    if (!has_one("breakdown", count))
        return NULL;
    if (take_limits(state, "breakdown", ROUNDING, arguments + 1, keywords, &limits))
        return NULL;
    if (keep_type(state, PART, "Part") || keep_type(state, BREAKDOWN, "Breakdown"))
        return NULL;
    /* nanos_of never returns None, so no value is missing here. */
    if (take_duration(state, arguments[0], state->kept[NANOS_OF], &duration) != 1)
        return NULL;
    return breakdown_of(state, &duration, &limits);
}
