/* The keywords of the calls, and the options of reading */
#include "lists.h"
#include "module.h"

struct said {
    uint32_t on;      /* the flags that are on */
    uint32_t off;     /* the flags that the caller has turned off */
    int default_unit; /* -1 if none is named */
};

/* Returns which of the kept names from `first` to `last` the keyword is, or -1 with an error. */
int name_of(struct state *state, const char *call, PyObject *keyword, int first, int last) {
    for (int name = first; name <= last; name++)
        if (keyword == state->kept[name])
            return name;
    for (int name = first; name <= last; name++)
        if (!PyUnicode_Compare(keyword, state->kept[name]))
            return name;
    PyErr_Format(PyExc_TypeError, "%s() got an unexpected keyword argument %R", call, keyword);
    return -1;
}

void raise_count(const char *call, Py_ssize_t count) {
    PyErr_Format(
        PyExc_TypeError, "%s() takes exactly one positional argument (%zd given)", call, count);
}

void raise_name(PyObject *name, const char *keyword, const char *listed) {
    PyErr_Format(PyUnicode_Check(name) ? PyExc_ValueError : PyExc_TypeError,
        "%s must be one of %s, not %R", keyword, listed, name);
}

/* Returns the unit of this name, or -1 with an error. A name that only an option adds is an error,
 * too. */
int unit_of(struct state *state, PyObject *name, const char *keyword) {
    /* Python usually keeps one object for equal names in a program, so this finds most printed
     * names. */
    for (int unit = 0; unit <= DURATION_STR_UNIT_NANOSECOND; unit++)
        if (name == state->kept[UNIT_NAMES + unit])
            return unit;
    /* If the name is no str, or has no UTF-8, raise_name replaces the error that is set here. */
    Py_ssize_t length;
    const char *bytes = PyUnicode_AsUTF8AndSize(name, &length);
    const int unit = bytes ? duration_str_unit(bytes, (size_t)length) : -1;
    if (unit < 0)
        raise_name(name, keyword, listed_units);
    return unit;
}

/* UNNAMED and UNSAID are the values of keywords that a caller of the package hasn't written. */
static int take_option(
    struct state *state, const char *call, PyObject *keyword, PyObject *value, struct said *said) {
    const int option = name_of(state, call, keyword, NO_CALC, DEFAULT_UNIT);
    if (option < 0)
        return -1;
    if (value == state->kept[UNNAMED] || value == state->kept[UNSAID])
        return 0;
    if (option == DEFAULT_UNIT) {
        said->default_unit = unit_of(state, value, "default_unit");
        return said->default_unit < 0 ? -1 : 0;
    }
    const int is_on = PyObject_IsTrue(value);
    const uint32_t bit = UINT32_C(1) << option;
    if (is_on < 0)
        return -1;
    if (is_on)
        said->on |= bit;
    else
        said->off |= bit;
    return 0;
}

int take_options(struct state *state, const char *call, PyObject *const *values, PyObject *keywords,
    struct reading *reading) {
    const Py_ssize_t words = keywords ? PyTuple_Size(keywords) : 0;
    struct said said = {.default_unit = -1};
    for (Py_ssize_t at = 0; at < words; at++)
        if (take_option(state, call, PyTuple_GetItem(keywords, at), values[at], &said))
            return -1;
    *reading = (struct reading){.options = said.on};
    if (said.default_unit < 0)
        return 0;
    if (said.on & DURATION_STR_OPTION_REQUIRE_UNIT) {
        PyErr_SetString(PyExc_ValueError, "default_unit can't be named if require_unit is on");
        return -1;
    }
    /* A default unit other than seconds turns no_calc on. */
    const uint32_t unit = DURATION_STR_OPTION_DEFAULT_UNIT((uint32_t)said.default_unit);
    if (unit & said.off) {
        PyErr_SetString(PyExc_ValueError, "no_calc can't be False if default_unit is not the "
                                          "second: a factor would count that unit too");
        return -1;
    }
    reading->options |= unit;
    reading->takes_numbers = true;
    return 0;
}

/* reading(*, OPTIONS): returns how values are read, in the form that read_list takes */
PyObject *module_reading(
    PyObject *module, PyObject *const *arguments, Py_ssize_t count, PyObject *keywords) {
    struct reading reading;
    if (take_options(PyModule_GetState(module), "reading", arguments + count, keywords, &reading))
        return NULL;
    return Py_BuildValue("(IO)", reading.options, reading.takes_numbers ? Py_True : Py_False);
}
