/* Reads a column of texts. */
#include "module.h"

/* timedelta64's NaT as a number, and a count of days that a timedelta64 of nanoseconds can hold
 * with any seconds and microseconds of a timedelta */
#define MISSING ((uint64_t)INT64_MIN)
#define MOST_DAYS 106750

/* Takes over the reference to the item. If that is NULL, there is an error already. */
static int append(PyObject *list, PyObject *item) {
    const int failed = !item || PyList_Append(list, item);
    Py_XDECREF(item);
    return failed ? -1 : 0;
}

/* Returns the error that is raised, and raises it no longer. */
static PyObject *take_raised(void) {
    PyObject *type, *error, *traceback;
    PyErr_Fetch(&type, &error, &traceback);
    PyErr_NormalizeException(&type, &error, &traceback);
    Py_XDECREF(type);
    Py_XDECREF(traceback);
    return error;
}

struct list {
    PyObject *values;
    uint64_t *nanos;
    Py_ssize_t room;
    struct reading reading;
    int raises;
    Py_ssize_t first;   /* the index of the first value, or -1 for a value by itself */
    PyObject *function; /* for timedelta64: called for values not read here; otherwise NULL */
    PyObject *errors;   /* gets the error of each refused value, or is NULL */
};

/* A function that is called may have made the list longer or shorter. */
static Py_ssize_t length_of(const struct list *list) {
    const Py_ssize_t length = PyList_Size(list->values);
    return length < list->room ? length : list->room;
}

/* Returns 1 if the value is kept, 0 if the function returns its error, and -1 with an error.
 * `*missing` is the last value for which the function has returned NaT. If a value is the same
 * object, it becomes NaT without a call. */
static int keep(struct state *state, const struct list *list, Py_ssize_t at, PyObject *value,
    PyObject **missing) {
    long parts[3];
    const bool is_nan =
        PyFloat_CheckExact(value) && PyFloat_AsDouble(value) != PyFloat_AsDouble(value);
    if (Py_IsNone(value) || value == *missing || is_nan) {
        list->nanos[at] = MISSING;
        return 1;
    }
    if (Py_IS_TYPE(value, (PyTypeObject *)state->kept[TIMEDELTA])) {
        if (parts_of(state, value, parts))
            return -1;
        if (parts[0] >= -MOST_DAYS && parts[0] <= MOST_DAYS) {
            const int64_t secs = (int64_t)parts[0] * 86400 + parts[1];
            list->nanos[at] = (uint64_t)(secs * SECOND + (int64_t)parts[2] * 1000);
            return 1;
        }
    }
    PyObject *kept = PyObject_CallFunction(list->function, "On", value, list->first + at);
    if (!kept)
        return -1;
    if (list->errors && PyExceptionInstance_Check(kept))
        return append(list->errors, kept);
    list->nanos[at] = (uint64_t)PyLong_AsLongLong(kept);
    Py_DECREF(kept);
    if (list->nanos[at] == MISSING) {
        Py_XDECREF(*missing);
        *missing = Py_NewRef(value);
    }
    return PyErr_Occurred() ? -1 : 1;
}

/* Returns 1 if the value is kept, 0 if it is refused, and -1 with an error. A ValueError that is
 * set already means that a number has more digits than Python writes. */
static int read_other(struct state *state, const struct list *list, Py_ssize_t at, PyObject *value,
    PyObject **missing) {
    if (PyErr_Occurred()) {
        if (!PyErr_ExceptionMatches(PyExc_ValueError))
            return -1;
        if (list->errors)
            return append(list->errors, take_raised());
        PyErr_Clear();
        return 0;
    }
    if (list->function)
        return keep(state, list, at, value, missing);
    if (!list->raises)
        return 0;
    raise_type_error(state, value, &list->reading, list->first + at);
    return -1;
}

static int read_value(struct state *state, const struct list *list, Py_ssize_t at,
    PyObject *refused, PyObject **missing) {
    PyObject *value = Py_NewRef(PyList_GetItem(list->values, at));
    PyObject *text = text_given(state, value, &list->reading);
    int is_read = text ? read_str(text, &list->reading, list->nanos + at)
                       : read_other(state, list, at, value, missing);
    if (text && !is_read && list->errors)
        is_read =
            append(list->errors, error_of(state, text, &list->reading, list->first + at, false));
    Py_XDECREF(text);
    Py_DECREF(value);
    if (is_read)
        return is_read < 0 ? -1 : 0;
    list->nanos[at] = list->function ? MISSING : 0;
    return append(refused, PyLong_FromSsize_t(at));
}

/* Returns -1 with the error of the first refused text or number, if there is one. */
static int raise_first(struct state *state, const struct list *list, PyObject *refused) {
    const Py_ssize_t at =
        PyList_Size(refused) ? PyLong_AsSsize_t(PyList_GetItem(refused, 0)) : length_of(list);
    if (at >= length_of(list))
        return 0;
    const Py_ssize_t index = list->first + at;
    PyObject *text = text_given(state, PyList_GetItem(list->values, at), &list->reading);
    if (text)
        raise_made(error_of(state, text, &list->reading, index, index >= 0));
    Py_XDECREF(text);
    return PyErr_Occurred() ? -1 : 0;
}

/* read_list(values, nanos, reading, raises, first, function, errors): reads the texts in a list
 * into a buffer of zeros, and also its numbers, if `reading` allows that. Returns a list of the
 * positions of the values that it refuses. These are refused texts and numbers, without a function
 * also values of other types, and with one those whose error the function returns.
 *
 * If `raises` is true, it raises an error instead: that of the first value of another type, or, if
 * there is none, that of the first refused text or number. The error counts positions from `first`.
 *
 * If `function` is not None, the buffer gets numbers of timedelta64. None, NaN and a refused text
 * become NaT. For a value that is not read here, the function returns the number.
 *
 * `errors` is a list, or is left out. Each value that is refused appends its error to the list. For
 * a value that is not read here, the function can return the error. */
PyObject *module_read_list(PyObject *module, PyObject *arguments) {
    struct list list = {.errors = NULL};
    Py_buffer nanos;
    if (!PyArg_ParseTuple(arguments, "O!w*(Ip)pnO|O!", &PyList_Type, &list.values, &nanos,
            &list.reading.options, &list.reading.takes_numbers, &list.raises, &list.first,
            &list.function, &PyList_Type, &list.errors))
        return NULL;
    struct state *state = PyModule_GetState(module);
    PyObject *refused = PyList_New(0), *missing = NULL;
    list.nanos = nanos.buf;
    list.room = nanos.len / 8;
    if (Py_IsNone(list.function))
        list.function = NULL;
    list.reading.in_timedelta64 = list.function;
    /* Errors are in no cycles. For some thousands of them the garbage collector would look through
     * the whole column. */
    const bool pauses = list.errors && PyGC_Disable();
    for (Py_ssize_t at = 0; refused && at < length_of(&list); at++)
        if (read_value(state, &list, at, refused, &missing) ||
            ((at + 1) % A_TURN == 0 && end_turn()))
            Py_CLEAR(refused);
    if (refused && list.raises && raise_first(state, &list, refused))
        Py_CLEAR(refused);
    if (pauses)
        PyGC_Enable();
    Py_XDECREF(missing);
    PyBuffer_Release(&nanos);
    return refused;
}
