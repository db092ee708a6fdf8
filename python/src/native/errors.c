/* The errors of refused texts, and what they say when a program asks */
#include "module.h"
#include <string.h>

/* A text that needs more suggestions than this has no mended text. For each of them, the whole text
 * is read. So without this limit, a long text could take very long. */
#define MOST_SUGGESTIONS 32

static PyObject *size_or_none(bool is_there, size_t size) {
    return is_there ? PyLong_FromSize_t(size) : Py_NewRef(Py_None);
}

/* Returns the DurationError of a text that read_str refuses. Its `args` say which text was read,
 * and how. The index -1 stands for none. If `names_index` is true, the error's line begins with it.
 */
PyObject *error_of(struct state *state, PyObject *given, const struct reading *reading,
    Py_ssize_t index, bool names_index) {
    const newfunc new_error =
        (newfunc)(uintptr_t)PyType_GetSlot((PyTypeObject *)PyExc_ValueError, Py_tp_new);
    PyObject *arguments = Py_BuildValue("(NINNN)", PyUnicode_FromObject(given), reading->options,
        PyBool_FromLong(reading->in_timedelta64), size_or_none(index >= 0, (size_t)index),
        PyBool_FromLong(names_index));
    if (!arguments)
        return NULL;
    /* The garbage collector would do so itself, but a column can have many errors. */
    PyObject_GC_UnTrack(arguments);
    PyObject *error = new_error((PyTypeObject *)state->kept[ERROR], arguments, NULL);
    Py_DECREF(arguments);
    return error;
}

/* Raises the error that a function of the package has made, or that it has raised. Takes over the
 * reference. */
void raise_made(PyObject *error) {
    if (error)
        PyErr_SetObject((PyObject *)Py_TYPE(error), error);
    Py_XDECREF(error);
}

void raise_type_error(
    struct state *state, PyObject *value, const struct reading *reading, Py_ssize_t index) {
    raise_made(PyObject_CallFunction(
        state->kept[TYPE_ERROR_OF], "Oin", value, reading->takes_numbers, index));
}

/* A refused text in UTF-8, and the options under which it was read. If its str has a lone
 * surrogate, the bytes are the empty text, which has no help and no mended text either. */
struct refused {
    PyObject *whole;
    const char *bytes;
    size_t length;
    uint32_t options;
    bool is_text;
};

/* Takes the arguments text and options. */
static bool take_refused(PyObject *arguments, struct refused *refused) {
    Py_ssize_t length = 0;
    if (!PyArg_ParseTuple(arguments, "UI", &refused->whole, &refused->options))
        return false;
    refused->bytes = PyUnicode_AsUTF8AndSize(refused->whole, &length);
    refused->is_text = refused->bytes;
    if (!refused->is_text && !PyErr_ExceptionMatches(PyExc_UnicodeEncodeError))
        return false;
    if (!refused->is_text) {
        PyErr_Clear();
        refused->bytes = "";
        length = 0;
    }
    refused->length = (size_t)length;
    return true;
}

static size_t count_characters(const char *bytes, size_t length) {
    size_t count = 0;
    for (size_t at = 0; at < length; at++)
        count += (bytes[at] & 0xC0) != 0x80;
    return count;
}

static PyObject *line_of_surrogate(PyObject *whole) {
    Py_ssize_t index = 0;
    while ((PyUnicode_ReadChar(whole, index) & ~(Py_UCS4)0x7FF) != 0xD800)
        index++;
    return PyUnicode_FromFormat("not UTF-8: a lone surrogate at index %zd", index);
}

/* Returns the line of the refused text, and gets its answer. If the text is read, its value doesn't
 * fit into timedelta64. */
static PyObject *line_of(const struct refused *refused, struct duration_str_answer *answer) {
    char line[DURATION_STR_ONE_LINE_BUFFER_SIZE];
    if (!refused->is_text) {
        *answer = (struct duration_str_answer){.cause = DURATION_STR_CAUSE_NOT_TEXT};
        return line_of_surrogate(refused->whole);
    }
    const size_t length =
        duration_str_one_line(refused->bytes, refused->length, refused->options, answer, line);
    if (length)
        return PyUnicode_FromStringAndSize(line, (Py_ssize_t)length);
    *answer = (struct duration_str_answer){.cause = DURATION_STR_CAUSE_OVERFLOW};
    return PyUnicode_FromString(
        "duration of 2^63 nanoseconds or more, which timedelta64 doesn't have");
}

/* answer(text, options): returns the line, the number of the cause, the place in bytes and in
 * characters, the bits of what was expected, and what was found there */
PyObject *module_answer(PyObject *module, PyObject *arguments) {
    struct refused refused;
    struct duration_str_answer answer;
    (void)module;
    if (!take_refused(arguments, &refused))
        return NULL;
    PyObject *line = line_of(&refused, &answer);
    const size_t place = answer.has_place ? answer.place : 0;
    const char *found = answer.found_length ? refused.bytes + place : NULL;
    return Py_BuildValue("(NINNIz#)", line, answer.cause, size_or_none(answer.has_place, place),
        size_or_none(answer.has_place, count_characters(refused.bytes, place)), answer.expected,
        found, (Py_ssize_t)answer.found_length);
}

/* reason(text, options): returns the reason, which is the line without its column. For a str with
 * a lone surrogate it returns that of the empty text, so Python asks only for syntax faults. */
PyObject *module_reason(PyObject *module, PyObject *arguments) {
    char reason[DURATION_STR_ONE_LINE_BUFFER_SIZE];
    struct refused refused;
    (void)module;
    if (!take_refused(arguments, &refused))
        return NULL;
    const size_t length =
        duration_str_reason(refused.bytes, refused.length, refused.options, NULL, reason);
    return PyUnicode_FromStringAndSize(reason, (Py_ssize_t)length);
}

/* report(text, options): returns the report, or the empty text if the line is not the library's */
PyObject *module_report(PyObject *module, PyObject *arguments) {
    char report[DURATION_STR_REPORT_BUFFER_SIZE];
    struct refused refused;
    (void)module;
    if (!take_refused(arguments, &refused))
        return NULL;
    const size_t length =
        duration_str_report(refused.bytes, refused.length, refused.options, NULL, report);
    return PyUnicode_FromStringAndSize(report, (Py_ssize_t)length);
}

/* The help for a refused text: a number of `enum duration_str_help_kind`, and the suggestion, with
 * the part that it replaces. If nothing is certain, the suggestion is empty and the numbers are
 * 0. */
struct help {
    uint32_t number;
    char suggestion[DURATION_STR_SUGGESTION_BUFFER_SIZE];
    size_t start, replaced_length;
};

static struct help help_of(const char *bytes, size_t length, uint32_t options) {
    struct help help;
    help.number = duration_str_help(
        bytes, length, options, help.suggestion, &help.start, &help.replaced_length);
    return help;
}

static bool is_certain(const struct help *help) {
    return *help->suggestion || help->replaced_length;
}

/* help(text, options): returns the number of the help, the suggestion or None, and where the part
 * that it replaces begins and ends, in characters */
PyObject *module_help(PyObject *module, PyObject *arguments) {
    struct refused refused;
    (void)module;
    if (!take_refused(arguments, &refused))
        return NULL;
    const struct help help = help_of(refused.bytes, refused.length, refused.options);
    const size_t start = count_characters(refused.bytes, help.start);
    const size_t replaced = count_characters(refused.bytes + help.start, help.replaced_length);
    return Py_BuildValue("(Iznn)", help.number, is_certain(&help) ? help.suggestion : NULL,
        (Py_ssize_t)start, (Py_ssize_t)(start + replaced));
}

/* Puts one suggestion after the other into the bytes, in which there is room for all of them.
 * Returns whether the text is then read, and its nanoseconds. */
static bool mend(char *bytes, size_t *length, uint32_t options, uint64_t *nanos) {
    for (int count = 0; count < MOST_SUGGESTIONS; count++) {
        const struct help help = help_of(bytes, *length, options);
        if (!is_certain(&help))
            break;
        const size_t written = strlen(help.suggestion);
        const size_t end = help.start + help.replaced_length;
        memmove(bytes + help.start + written, bytes + end, *length - end);
        memcpy(bytes + help.start, help.suggestion, written);
        *length += written - help.replaced_length;
    }
    struct duration_str_answer answer;
    const bool is_read = duration_str_parse_with(bytes, *length, options, &answer);
    *nanos = answer.nanos;
    return is_read;
}

/* mended(text, options): returns the mended text and its nanoseconds, or None if the text has
 * none */
PyObject *module_mended(PyObject *module, PyObject *arguments) {
    struct refused refused;
    uint64_t nanos;
    (void)module;
    if (!take_refused(arguments, &refused))
        return NULL;
    size_t length = refused.length;
    const size_t room = MOST_SUGGESTIONS * DURATION_STR_SUGGESTION_BUFFER_SIZE;
    char *bytes = PyMem_Malloc(length + room);
    if (!bytes)
        return PyErr_NoMemory();
    memcpy(bytes, refused.bytes, length);
    const bool is_read = mend(bytes, &length, refused.options, &nanos);
    PyObject *mended =
        is_read ? Py_BuildValue("(s#K)", bytes, (Py_ssize_t)length, (unsigned long long)nanos)
                : Py_NewRef(Py_None);
    PyMem_Free(bytes);
    return mended;
}
