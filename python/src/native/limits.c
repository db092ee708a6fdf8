/* The options of printing */
#include "lists.h"
#include "module.h"

static int take_parts(PyObject *value, uint32_t *parts) {
    int overflow;
    if (PyBool_Check(value) || !PyIndex_Check(value)) {
        PyErr_Format(PyExc_TypeError, "parts must be a whole number, not %R", value);
        return -1;
    }
    PyObject *number = PyNumber_Index(value);
    const long long count = number ? PyLong_AsLongLongAndOverflow(number, &overflow) : -1;
    Py_XDECREF(number);
    if (!number)
        return -1;
    if (overflow < 0 || (!overflow && count < 1)) {
        PyErr_SetString(PyExc_ValueError, "parts must be 1 or more");
        return -1;
    }
    *parts = overflow || count > no_limits.parts ? no_limits.parts : (uint32_t)count;
    return 0;
}

/* Gets the position of the name in a list of three names. `listed` has them for an error. */
static int take_one_of(PyObject *name, const char *keyword, const char *const names[3],
    const char *listed, uint32_t *number) {
    for (*number = 0; PyUnicode_Check(name) && *number < 3; ++*number)
        if (!PyUnicode_CompareWithASCIIString(name, names[*number]))
            return 0;
    raise_name(name, keyword, listed);
    return -1;
}

/* None is not to round. The names are those of the ways from DURATION_STR_ROUNDING_DOWN on. */
static int take_rounding(PyObject *value, uint32_t *rounding) {
    if (Py_IsNone(value))
        return 0;
    const int failed = take_one_of(value, "rounding", rounding_names, listed_roundings, rounding);
    *rounding += DURATION_STR_ROUNDING_DOWN;
    return failed;
}

static int take_units(struct state *state, PyObject *value, uint32_t *units) {
    if (Py_IsNone(value))
        return 0;
    PyObject *names = PyUnicode_Check(value) ? NULL : PyObject_GetIter(value), *name;
    if (!names) {
        /* An error of the value's own __iter__ passes through, except a TypeError, which Python
         * also raises if a value can't be iterated. */
        if (!PyErr_Occurred() || PyErr_ExceptionMatches(PyExc_TypeError))
            PyErr_Format(PyExc_TypeError, "units must be a list of units, not %R", value);
        return -1;
    }
    uint32_t chosen = 0;
    while ((name = PyIter_Next(names))) {
        const int unit = unit_of(state, name, "each of units");
        Py_DECREF(name);
        if (unit < 0)
            break;
        chosen |= DURATION_STR_UNITS(unit);
    }
    Py_DECREF(names);
    if (PyErr_Occurred())
        return -1;
    if (!chosen) {
        PyErr_SetString(PyExc_ValueError, "units must not be empty");
        return -1;
    }
    *units = chosen;
    return 0;
}

/* The largest and the smallest unit go to `*largest` and `*smallest`. If the keyword is -1, name_of
 * has set the error. */
static int take_limit(struct state *state, int keyword, PyObject *value, struct limits *limits,
    int *largest, int *smallest) {
    switch (keyword) {
    case PARTS:
        return take_parts(value, &limits->parts);
    case UNITS:
        return take_units(state, value, &limits->units);
    case LARGEST:
        *largest = unit_of(state, value, "largest");
        return *largest < 0 ? -1 : 0;
    case SMALLEST:
        *smallest = unit_of(state, value, "smallest");
        return *smallest < 0 ? -1 : 0;
    case ROUNDING:
        return take_rounding(value, &limits->rounding);
    case STYLE:
        return take_one_of(value, "style", style_names, listed_styles, &limits->style);
    }
    return -1;
}

/* The call knows the keywords from PARTS to `last`. */
int take_limits(struct state *state, const char *call, int last, PyObject *const *values,
    PyObject *keywords, struct limits *limits) {
    const Py_ssize_t words = keywords ? PyTuple_Size(keywords) : 0;
    int largest = DURATION_STR_UNIT_YEAR, smallest = DURATION_STR_UNIT_NANOSECOND;
    *limits = no_limits;
    for (Py_ssize_t at = 0; at < words; at++) {
        const int keyword = name_of(state, call, PyTuple_GetItem(keywords, at), PARTS, last);
        if (take_limit(state, keyword, values[at], limits, &largest, &smallest))
            return -1;
    }
    limits->units &= DURATION_STR_UNITS_BETWEEN(largest, smallest);
    if (limits->units)
        return 0;
    PyErr_SetString(PyExc_ValueError, largest > smallest
                                          ? "largest must not be a shorter unit than smallest"
                                          : "units must have one from largest to smallest");
    return -1;
}

/* limits(*, parts, units, largest, smallest, rounding, style): returns the limits in the form that
 * format_list takes */
PyObject *module_limits(
    PyObject *module, PyObject *const *arguments, Py_ssize_t count, PyObject *keywords) {
    struct limits limits;
    if (take_limits(
            PyModule_GetState(module), "format", STYLE, arguments + count, keywords, &limits))
        return NULL;
    return Py_BuildValue("(IIII)", limits.units, limits.parts, limits.rounding, limits.style);
}
