/* The extension module `_native`: its functions, and the objects that it keeps */
#include "module.h"
#include "docs.h"
#include "lists.h"

/* The objects before ERROR are these names, in this order. From PART on they are the package's
 * objects that are taken at the first call of `breakdown`, since they need the module typing. */
static const char *const kept_names[] = {OPTION_NAMES, "default_unit", "parts", "units", "largest",
    "smallest", "rounding", "style", "days", "seconds", "microseconds"};

PyObject *member(const char *module, const char *name) {
    PyObject *imported = PyImport_ImportModule(module);
    PyObject *taken = imported ? PyObject_GetAttrString(imported, name) : NULL;
    Py_XDECREF(imported);
    return taken;
}

/* Returns -1 with an error if a signal has raised one. */
int end_turn(void) {
    Py_BEGIN_ALLOW_THREADS;
    Py_END_ALLOW_THREADS;
    return PyErr_CheckSignals();
}

#define FAST(call) (PyCFunction)(void (*)(void)) call, METH_FASTCALL | METH_KEYWORDS
static PyMethodDef module_methods[] = {
    {"parse_ns", FAST(module_parse_ns), parse_ns_doc},
    {"parse", FAST(module_parse), parse_doc},
    {"parse_seconds", FAST(module_parse_seconds), parse_seconds_doc},
    {"format", FAST(module_format), format_doc},
    {"breakdown", FAST(module_breakdown), breakdown_doc},
    {"reading", FAST(module_reading), NULL},
    {"limits", FAST(module_limits), NULL},
    {"format_list", module_format_list, METH_VARARGS, NULL},
    {"read_list", module_read_list, METH_VARARGS, NULL},
    {"answer", module_answer, METH_VARARGS, NULL},
    {"reason", module_reason, METH_VARARGS, NULL},
    {"report", module_report, METH_VARARGS, NULL},
    {"help", module_help, METH_VARARGS, NULL},
    {"mended", module_mended, METH_VARARGS, NULL},
    {NULL, NULL, 0, NULL},
};

static int module_exec(PyObject *module) {
    struct state *state = PyModule_GetState(module);
    int is_there = 1;
    for (int at = 0; at < ERROR; at++)
        state->kept[at] = PyUnicode_InternFromString(kept_names[at]);
    state->kept[ERROR] = member("duration_str._errors", "DurationError");
    state->kept[TYPE_ERROR_OF] = member("duration_str._errors", "type_error_of");
    state->kept[NANOS_OF] = member("duration_str._errors", "nanos_of");
    state->kept[WHOLE_OF] = member("duration_str._errors", "whole_of");
    state->kept[UNNAMED] = member("duration_str._errors", "UNNAMED");
    state->kept[UNSAID] = member("duration_str._errors", "UNSAID");
    state->kept[TIMEDELTA] = member("datetime", "timedelta");
    if (state->kept[TIMEDELTA])
        state->kept[A_MICROSECOND] = PyObject_GetAttrString(state->kept[TIMEDELTA], "resolution");
    state->kept[A_SECOND] = PyLong_FromLong(SECOND);
    /* Python takes UTF-8 here, and unit_names are Latin-1, which differs in one name. */
    for (int unit = 0; unit <= DURATION_STR_UNIT_NANOSECOND; unit++)
        state->kept[UNIT_NAMES + unit] = PyUnicode_InternFromString(
            unit == DURATION_STR_UNIT_MICROSECOND ? "\xc2\xb5s" : unit_names[unit]);
    for (int at = 0; at < PART; at++)
        is_there = is_there && state->kept[at];
    return is_there ? 0 : -1;
}

static void module_free(void *module) {
    struct state *state = PyModule_GetState(module);
    for (int at = 0; state && at < KEPT; at++)
        Py_CLEAR(state->kept[at]);
    for (int place = 0; state && place < DIGITS; place++)
        for (int digit = 0; digit < RADIX; digit++)
            Py_CLEAR(state->terms[place][digit]);
}

/* ISO C lets a function's address become a number, but not a pointer to an object. From CPython
 * 3.12 on a slot says that interpreters with a lock of their own may load the module. Its number
 * and its value are those of Py_mod_multiple_interpreters and Py_MOD_PER_INTERPRETER_GIL_SUPPORTED,
 * which earlier headers lack. It is left out for earlier interpreters, which refuse slots that they
 * don't know. */
static PyModuleDef_Slot module_slots[] = {
    {Py_mod_exec, (void *)(uintptr_t)module_exec}, {0, NULL}, {0, NULL}};
static struct PyModuleDef module_def = {PyModuleDef_HEAD_INIT, "_native", NULL,
    sizeof(struct state), module_methods, module_slots, NULL, NULL, module_free};

PyMODINIT_FUNC PyInit__native(void) {
    if (Py_Version >= 0x030c0000)
        module_slots[1] = (PyModuleDef_Slot){3, (void *)2};
    return PyModuleDef_Init(&module_def);
}
