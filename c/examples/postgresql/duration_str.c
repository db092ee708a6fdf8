/* Durations in PostgreSQL's SQL. The file duration_str--1.sql declares the functions, and says what
 * they do. */
#include "postgres.h"

#include "fmgr.h"
#include "mb/pg_wchar.h"
#include "utils/builtins.h"
#include "utils/timestamp.h"

#include <duration_str.h>

PG_MODULE_MAGIC;

static const uint32 options = 0; /* or, for example, DURATION_STR_OPTION_REQUIRE_UNIT */

PG_FUNCTION_INFO_V1(sql_parse_duration);
PG_FUNCTION_INFO_V1(sql_parse_duration_ns);
PG_FUNCTION_INFO_V1(sql_duration_error);
PG_FUNCTION_INFO_V1(sql_format_duration);
PG_FUNCTION_INFO_V1(sql_format_duration_ns);

/* Reads a text, which is in the database's encoding. Returns the line that says why it is refused,
 * in that encoding too, or NULL if it is read. */
static char *fault_of(text *given, uint64 *nanos) {
    static char line[DURATION_STR_ONE_LINE_BUFFER_SIZE]; /* A server process has one thread. */
    struct duration_str_answer answer;
    const char *bytes = text_to_cstring(given);
    const char *utf8 = pg_server_to_any(bytes, (int)strlen(bytes), PG_UTF8);
    size_t length = duration_str_one_line(utf8, strlen(utf8), options, &answer, line);
    *nanos = answer.nanos;
    return length == 0 ? NULL : pg_any_to_server(line, (int)length, PG_UTF8);
}

static uint64 nanos_of(text *given) {
    uint64 nanos;
    const char *fault = fault_of(given, &nanos);
    if (fault != NULL)
        ereport(ERROR, errcode(ERRCODE_INVALID_TEXT_REPRESENTATION), errmsg("%s", fault));
    return nanos;
}

static text *printed(int64 secs, int64 nanos) {
    char line[DURATION_STR_FORMAT_WITH_BUFFER_SIZE];
    size_t length;
    if (secs < 0 || nanos < 0)
        ereport(ERROR, errcode(ERRCODE_NUMERIC_VALUE_OUT_OF_RANGE),
            errmsg("negative durations are not printed"));

    length = duration_str_format_with((uint64)secs, (uint64)nanos, DURATION_STR_UNITS_ALL,
        DURATION_STR_UNIT_COUNT, DURATION_STR_ROUNDING_NONE, DURATION_STR_STYLE_SHORT, line);
    return cstring_to_text(pg_any_to_server(line, (int)length, PG_UTF8));
}

Datum sql_parse_duration(PG_FUNCTION_ARGS) {
    Interval *interval = palloc0(sizeof *interval);
    interval->time = (TimeOffset)(nanos_of(PG_GETARG_TEXT_PP(0)) / 1000);
    PG_RETURN_INTERVAL_P(interval);
}

Datum sql_parse_duration_ns(PG_FUNCTION_ARGS) {
    const uint64 nanos = nanos_of(PG_GETARG_TEXT_PP(0));
    if (nanos > PG_INT64_MAX)
        ereport(ERROR, errcode(ERRCODE_NUMERIC_VALUE_OUT_OF_RANGE),
            errmsg("duration of 2^63 nanoseconds or more"));
    PG_RETURN_INT64((int64)nanos);
}

Datum sql_duration_error(PG_FUNCTION_ARGS) {
    uint64 nanos;
    const char *fault = fault_of(PG_GETARG_TEXT_PP(0), &nanos);
    if (fault == NULL)
        PG_RETURN_NULL();
    PG_RETURN_TEXT_P(cstring_to_text(fault));
}

Datum sql_format_duration(PG_FUNCTION_ARGS) {
    const Interval *interval = PG_GETARG_INTERVAL_P(0);
    int64 secs = interval->day * (int64)SECS_PER_DAY + interval->time / USECS_PER_SEC;
    int64 micros = interval->time % USECS_PER_SEC;
    if (interval->month != 0)
        ereport(ERROR, errcode(ERRCODE_INVALID_PARAMETER_VALUE),
            errmsg("intervals with months or years are not printed"));

    if (micros < 0) {
        secs -= 1;
        micros += USECS_PER_SEC;
    }
    PG_RETURN_TEXT_P(printed(secs, micros * 1000));
}

Datum sql_format_duration_ns(PG_FUNCTION_ARGS) {
    const int64 nanos = PG_GETARG_INT64(0);
    PG_RETURN_TEXT_P(printed(0, nanos));
}
