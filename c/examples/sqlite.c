/* Durations in SQLite's SQL. In sqlite3, `.load ./sqlite` loads this extension, which adds these
 * functions. For NULL they return NULL.
 *
 * - `parse_duration(text)` returns an INTEGER of nanoseconds, below 2^63. A text that the library
 *   refuses is an error with the library's line.
 * - `duration_error(text)` returns this line, or NULL if the text is read.
 * - `format_duration(nanos)` returns the printed text.
 *
 * Durations of 2^63 nanoseconds together, some 292 years, are too much for SQLite's `sum`, which
 * then says `integer overflow`. Add seconds instead: `sum(parse_duration(text) / 1e9)`. */
#include <sqlite3ext.h>

#include "duration_str.h"

SQLITE_EXTENSION_INIT1

/* Reads a value that is not NULL. Returns why it is refused, or NULL if it is read. The line has
 * space for a reason. */
static const char *fault_of(sqlite3_value *value, uint64_t *nanos, char *line) {
    struct duration_str_answer answer;
    const int type = sqlite3_value_type(value);
    if (type == SQLITE_INTEGER || type == SQLITE_FLOAT)
        /* A number could mean seconds, as in a text, or nanoseconds, as in format_duration. */
        return "a duration is a TEXT, such as '1h 30m'";

    const char *text = (const char *)sqlite3_value_text(value);
    const size_t length = (size_t)sqlite3_value_bytes(value);
    if (duration_str_one_line(text, length, 0, &answer, line) > 0)
        return line;

    *nanos = answer.nanos;
    return answer.nanos > INT64_MAX ? "duration of 2^63 nanoseconds or more" : NULL;
}

static void parse(sqlite3_context *context, int count, sqlite3_value **values) {
    (void)count;
    uint64_t nanos;
    char line[DURATION_STR_ONE_LINE_BUFFER_SIZE];
    if (sqlite3_value_type(values[0]) == SQLITE_NULL)
        return;

    const char *fault = fault_of(values[0], &nanos, line);
    if (fault != NULL)
        sqlite3_result_error(context, fault, -1);
    else
        sqlite3_result_int64(context, (sqlite3_int64)nanos);
}

static void error(sqlite3_context *context, int count, sqlite3_value **values) {
    (void)count;
    uint64_t nanos;
    char line[DURATION_STR_ONE_LINE_BUFFER_SIZE];
    if (sqlite3_value_type(values[0]) == SQLITE_NULL)
        return;

    const char *fault = fault_of(values[0], &nanos, line);
    if (fault != NULL)
        sqlite3_result_text(context, fault, -1, SQLITE_TRANSIENT);
}

static void format(sqlite3_context *context, int count, sqlite3_value **values) {
    (void)count;
    char text[DURATION_STR_FORMAT_BUFFER_SIZE];
    const sqlite3_int64 nanos = sqlite3_value_int64(values[0]);
    if (sqlite3_value_type(values[0]) == SQLITE_NULL)
        return;
    if (sqlite3_value_type(values[0]) != SQLITE_INTEGER || nanos < 0)
        sqlite3_result_error(context, "a duration is an INTEGER of nanoseconds from 0 on", -1);
    else
        sqlite3_result_text(
            context, text, (int)duration_str_format((uint64_t)nanos, text), SQLITE_TRANSIENT);
}

int sqlite3_sqlite_init(sqlite3 *database, char **message, const sqlite3_api_routines *api) {
    SQLITE_EXTENSION_INIT2(api);
    const int flags = SQLITE_UTF8 | SQLITE_DETERMINISTIC | SQLITE_INNOCUOUS;
    int code =
        sqlite3_create_function(database, "parse_duration", 1, flags, NULL, parse, NULL, NULL);
    if (code == SQLITE_OK)
        code =
            sqlite3_create_function(database, "duration_error", 1, flags, NULL, error, NULL, NULL);
    if (code == SQLITE_OK)
        code = sqlite3_create_function(
            database, "format_duration", 1, flags, NULL, format, NULL, NULL);
    *message = NULL;
    return code;
}
