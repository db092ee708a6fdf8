/* Calls each function that the header declares, and prints what is not as expected. It compiles as
 * C and as C++, and shows that the header and the library agree on structs and numbers. */
#include <stdio.h>
#include <string.h>

#include "duration_str.h"

static int wrong = 0;

static void expect(bool holds, const char *what) {
    if (!holds) {
        printf("not as expected: %s\n", what);
        wrong = 1;
    }
}

/* Each byte of the answer is set before the call, so that a field that the call does not write
 * shows. */
static struct duration_str_answer read_with(const char *text, uint32_t options) {
    struct duration_str_answer answer;
    memset(&answer, 0xff, sizeof answer);
    bool read = duration_str_parse_with(text, strlen(text), options, &answer);
    expect(read == (answer.cause == DURATION_STR_CAUSE_READ),
        "a text is read exactly if there is no cause");
    return answer;
}

static bool is_syntax(
    struct duration_str_answer answer, size_t place, uint32_t expected, size_t found_length) {
    return answer.cause == DURATION_STR_CAUSE_SYNTAX && answer.has_place == 1 &&
           answer.place == place && answer.expected == expected &&
           answer.found_length == found_length && answer.nanos == 0 && answer.first_operator == 0 &&
           answer.later_operator == 0;
}

static bool is_unknown(uint32_t options) {
    return read_with("1m", options).cause == DURATION_STR_CAUSE_UNKNOWN_OPTION;
}

static void check_options(void) {
    const char *minute = "1\xe5\x88\x86";
    const uint32_t unit = DURATION_STR_EXPECTED_UNIT,
                   unit_or_end = unit | DURATION_STR_EXPECTED_END;
    const uint32_t after_number = unit_or_end | DURATION_STR_EXPECTED_OPERATOR;
    struct duration_str_answer read = read_with(minute, DURATION_STR_OPTION_CN_UNIT);
    expect(
        read.nanos == 60000000000u && read.has_place == 0 && read.place == 0 && read.expected == 0,
        "a Chinese unit");
    expect(is_syntax(read_with(minute, 0), 1, after_number, 3), "a Chinese unit, unasked for");
    expect(is_syntax(read_with("1M", DURATION_STR_OPTION_LOWERCASE), 1, after_number, 1),
        "a capital under lowercase");
    expect(
        is_syntax(read_with("1+2", DURATION_STR_OPTION_NO_CALC), 1, unit_or_end, 1), "an operator");
    expect(is_syntax(read_with("1h 30", DURATION_STR_OPTION_REQUIRE_UNIT), 5, unit, 0),
        "a unit that is missing");
    const uint32_t more_names = DURATION_STR_OPTION_MORE_NAMES;
    expect(read_with("2hrs 5 mins 10", more_names).nanos == UINT64_C(7510000000000),
        "more names of units");
    expect(is_syntax(read_with("5 mins", 0), 2, after_number, 4), "one of them, unasked for");
    expect(is_syntax(read_with("5 minz", more_names), 2, after_number, 4), "no name");
    expect(is_unknown(more_names << 1), "the bit after the last option");
}

static void check_default_units(void) {
    static const char *const units[] = {
        "1y", "1q", "1mon", "1w", "1d", "1h", "1m", "1s", "1ms", "1us", "1ns"};
    const uint32_t no_calc = DURATION_STR_OPTION_NO_CALC,
                   after_unit = DURATION_STR_EXPECTED_NUMBER | DURATION_STR_EXPECTED_END;
    for (uint32_t unit = 0; unit <= DURATION_STR_UNIT_NANOSECOND; unit++)
        expect(read_with("1", DURATION_STR_OPTION_DEFAULT_UNIT(unit)).nanos ==
                   read_with(units[unit], 0).nanos,
            "a number without a unit");
    const uint32_t second = DURATION_STR_OPTION_DEFAULT_UNIT(DURATION_STR_UNIT_SECOND);
    expect(second == 0, "naming the second is naming nothing");
    expect(read_with("1s+1", second).nanos == 2000000000u, "operators beside the second");
    const uint32_t millisecond = DURATION_STR_OPTION_DEFAULT_UNIT(DURATION_STR_UNIT_MILLISECOND);
    expect(millisecond == 0x90001u, "the bits of a default unit, which bindings compute");
    expect(read_with("90", 0x80001u).nanos == UINT64_C(90000000000) &&
               read_with("90*2", 0x80001u).place == 2 && is_unknown(0x80000u) &&
               is_unknown(0x80001u | DURATION_STR_OPTION_REQUIRE_UNIT),
        "the bits of the second, if a binding computes them like those of another unit");
    expect(read_with("1s 500", millisecond).nanos == 1500000000u, "a second and milliseconds");
    expect(is_syntax(read_with("90s*2", millisecond), 3, after_unit, 1), "a factor");
    expect(is_syntax(read_with("1s+500ms", millisecond), 2, after_unit, 1), "a plus");
    expect(read_with("1M 500", millisecond | DURATION_STR_OPTION_LOWERCASE).place == 1,
        "a default unit beside another option");
    expect(
        read_with("5mins 500", millisecond | DURATION_STR_OPTION_MORE_NAMES).nanos == 300500000000u,
        "a default unit beside more names");
    expect(is_unknown(millisecond & ~no_calc), "a default unit beside operators");
    expect(is_unknown(millisecond | DURATION_STR_OPTION_REQUIRE_UNIT),
        "a default unit where a unit is required");
    expect(is_unknown(DURATION_STR_OPTION_DEFAULT_UNIT(DURATION_STR_UNIT_NANOSECOND + 1)) &&
               is_unknown(DURATION_STR_OPTION_DEFAULT_UNIT(14)) &&
               is_unknown(DURATION_STR_OPTION_DEFAULT_UNIT(15)),
        "a default unit above the last unit");
    expect(is_unknown(DURATION_STR_OPTION_DEFAULT_UNIT(-1)) &&
               is_unknown(DURATION_STR_OPTION_DEFAULT_UNIT(0xFFFF)) &&
               is_unknown(DURATION_STR_OPTION_DEFAULT_UNIT(0x10000 + DURATION_STR_UNIT_SECOND)),
        "a default unit that is no unit, such as a search's -1");
    const int64_t too_wide = INT64_C(0x100000000) + DURATION_STR_UNIT_SECOND;
    expect(is_unknown(DURATION_STR_OPTION_DEFAULT_UNIT(too_wide)),
        "a default unit of more than 32 bits");
}

static void check_refusals(void) {
    expect(is_syntax(read_with("1m+", 0), 3, DURATION_STR_EXPECTED_NUMBER, 0),
        "the end after an operator");
    struct duration_str_answer first = read_with("10000000000000000y+60", 0);
    expect(first.cause == DURATION_STR_CAUSE_OVERFLOW && first.has_place == 1 && first.place == 0,
        "a first term too large");
    struct duration_str_answer mixed = read_with("1m 2s*3", 0);
    expect(mixed.cause == DURATION_STR_CAUSE_MIXED && mixed.has_place == 0 &&
               mixed.first_operator == '+' && mixed.later_operator == '*',
        "operators");
    expect(read_with("", 0).cause == DURATION_STR_CAUSE_EMPTY, "the empty text");
    expect(read_with("1s 99999999999999999999", 0).cause == DURATION_STR_CAUSE_NUMBER_TOO_LARGE,
        "a number");
    expect(read_with("1\xff", 0).cause == DURATION_STR_CAUSE_NOT_TEXT, "bytes that are no UTF-8");
    expect(
        strcmp(duration_str_cause_name(DURATION_STR_CAUSE_UNKNOWN_OPTION), "UNKNOWN_OPTION") == 0,
        "the last name");
    expect(strcmp(duration_str_cause_name(9), "") == 0, "no name");
}

/* All bytes of a long text are read, up to the last one, and none after it. */
static void check_long_texts(void) {
    static char text[(1 << 17) + 2];
    const size_t length = sizeof text - 1;
    struct duration_str_answer answer;
    uint64_t nanos;
    memset(text, ' ', sizeof text);
    memcpy(text + length - 2, "1mx", 3);
    expect(duration_str_parse(text, length, &nanos) && nanos == 60000000000u, "a long text");
    text[length - 1] = '-';
    expect(!duration_str_parse_with(text, length, 0, &answer) &&
               is_syntax(answer, length - 1, read_with("1-", 0).expected, 1),
        "the last byte of a long text");
    memcpy(text + length - 4, "1.5h", 4);
    size_t start, replaced_length;
    expect(duration_str_help(text, length, 0, NULL, &start, &replaced_length) ==
                   DURATION_STR_HELP_FRACTION &&
               start == length - 4 && replaced_length == 4,
        "the part of a long text that is replaced");
}

static void check_null_texts(void) {
    uint64_t nanos = 7;
    struct duration_str_answer answer;
    expect(!duration_str_parse(NULL, 0, &nanos) && nanos == 7, "a null text");
    expect(duration_str_parse("0", 1, &nanos) && nanos == 0, "zero");
    expect(!duration_str_parse_with(NULL, 0, 0, &answer), "a null text with options");
    expect(answer.cause == DURATION_STR_CAUSE_EMPTY, "its answer");
    expect(duration_str_unit(NULL, 0) == -1, "a null name");
}

static void check_null_results(void) {
    static const char *const texts[] = {"5 mins", "1h", "", "600y", "1h+2*3", "\xff"};
    for (size_t at = 0; at < sizeof texts / sizeof *texts; at++) {
        const char *text = texts[at];
        struct duration_str_answer answer;
        char line[2][DURATION_STR_ONE_LINE_BUFFER_SIZE];
        char report[2][DURATION_STR_REPORT_BUFFER_SIZE];
        size_t length = duration_str_one_line(text, strlen(text), 0, &answer, line[0]);
        expect(duration_str_one_line(text, strlen(text), 0, NULL, line[1]) == length &&
                   strcmp(line[0], line[1]) == 0,
            "a line without an answer");
        length = duration_str_reason(text, strlen(text), 0, &answer, line[0]);
        expect(duration_str_reason(text, strlen(text), 0, NULL, line[1]) == length &&
                   strcmp(line[0], line[1]) == 0,
            "a reason without an answer");
        length = duration_str_report(text, strlen(text), 0, &answer, report[0]);
        expect(duration_str_report(text, strlen(text), 0, NULL, report[1]) == length &&
                   strcmp(report[0], report[1]) == 0,
            "a report without an answer");
    }
    uint64_t counts[DURATION_STR_UNIT_COUNT];
    expect(duration_str_breakdown(193, 29000000, DURATION_STR_UNITS_ALL, 2,
               DURATION_STR_ROUNDING_NONE, counts, NULL) &&
               counts[DURATION_STR_UNIT_MINUTE] == 3 && counts[DURATION_STR_UNIT_SECOND] == 13,
        "counts without the rest");
    counts[0] = 7;
    expect(!duration_str_breakdown(1, 0, 0, 2, DURATION_STR_ROUNDING_NONE, counts, NULL) &&
               counts[0] == 7,
        "no counts without the rest");
}

static bool is_rounded(uint64_t secs, uint64_t nanos, uint32_t units, uint32_t parts,
    uint32_t rounding, uint32_t style, const char *wanted) {
    char printed[DURATION_STR_FORMAT_WITH_BUFFER_SIZE];
    memset(printed, '#', sizeof printed);
    const size_t length =
        duration_str_format_with(secs, nanos, units, parts, rounding, style, printed);
    return length == strlen(wanted) && strcmp(printed, wanted) == 0 && printed[length + 1] == '#';
}

static bool is_printed(uint64_t secs, uint64_t nanos, uint32_t units, uint32_t parts,
    uint32_t style, const char *wanted) {
    return is_rounded(secs, nanos, units, parts, DURATION_STR_ROUNDING_NONE, style, wanted);
}

static void check_printing(void) {
    const uint32_t all = DURATION_STR_UNITS_ALL, style = DURATION_STR_STYLE_SHORT;
    const uint32_t year = DURATION_STR_UNIT_YEAR, day = DURATION_STR_UNIT_DAY,
                   second = DURATION_STR_UNIT_SECOND, nanosecond = DURATION_STR_UNIT_NANOSECOND;
    char printed[DURATION_STR_FORMAT_BUFFER_SIZE];
    expect(duration_str_format(60000000000, printed) == 4 && strcmp(printed, "1min") == 0,
        "a duration");
    expect(
        is_printed(5401, 0, all, 2, DURATION_STR_STYLE_LONG, "1 hour 30 minutes"), "a long style");
    expect(
        is_printed(5401, 0, all, 256, DURATION_STR_STYLE_COMPACT, "1h30min1s"), "a compact style");
    expect(is_printed(193, 29000000, all, 256, style, "3min 13s 29ms"), "more parts than units");
    expect(is_printed(0, 193029000000, all, 256, style, "3min 13s 29ms") &&
               is_printed(190, 3029000000, all, 256, style, "3min 13s 29ms"),
        "nanoseconds of more than a second");
    expect(
        is_printed(193, 0, all, 2, DURATION_STR_STYLE_LONG + 1, ""), "a style above the last one");
    const uint32_t years_and_days = DURATION_STR_UNITS(day) | DURATION_STR_UNITS(year);
    expect(is_printed(400 * 86400, 0, years_and_days, 2, style, "1y 35d"), "years and days");
    expect(is_printed(4295057357, 5, DURATION_STR_UNITS(second), 9, style, "4295057357s"),
        "seconds of 33 bits");
    expect(is_printed(193, 0, DURATION_STR_UNITS_BETWEEN(second, day), 2, style, ""), "no units");
    expect(is_printed(193, 0, DURATION_STR_UNITS(nanosecond + 1), 2, style, ""),
        "a unit above the last one");
    for (uint32_t largest = year; largest <= nanosecond; largest++)
        for (uint32_t smallest = year; smallest <= nanosecond; smallest++) {
            uint32_t between = 0;
            for (uint32_t unit = largest; unit <= smallest; unit++)
                between |= DURATION_STR_UNITS(unit);
            expect(DURATION_STR_UNITS_BETWEEN(largest, smallest) == between, "units between two");
        }
    expect(DURATION_STR_UNITS_BETWEEN(year, nanosecond) == all, "all units");
}

struct breakdown {
    uint64_t secs, nanos;
    uint32_t units, parts, rounding;
    uint64_t counts[DURATION_STR_UNIT_COUNT], rest;
};

/* The counts are set before the call, so that a count that the call does not write shows. */
static bool is_broken_down(const struct breakdown *wanted) {
    uint64_t counts[DURATION_STR_UNIT_COUNT], rest = 77;
    memset(counts, '#', sizeof counts);
    return duration_str_breakdown(wanted->secs, wanted->nanos, wanted->units, wanted->parts,
               wanted->rounding, counts, &rest) &&
           memcmp(counts, wanted->counts, sizeof counts) == 0 && rest == wanted->rest;
}

static void check_breakdowns(void) {
    const uint32_t all = DURATION_STR_UNITS_ALL, none = DURATION_STR_ROUNDING_NONE,
                   down = DURATION_STR_ROUNDING_DOWN, nearest = DURATION_STR_ROUNDING_NEAREST,
                   up = DURATION_STR_ROUNDING_UP,
                   second = DURATION_STR_UNITS(DURATION_STR_UNIT_SECOND),
                   millisecond = DURATION_STR_UNITS(DURATION_STR_UNIT_MILLISECOND);
    const struct breakdown rows[] = {
        {39689999, 123456789, all, 11, none, {1, 1, 0, 0, 3, 8, 59, 59, 123, 456, 789}, 0},
        {0, 39689999123456789, all, 1u << 31, none, {1, 1, 0, 0, 3, 8, 59, 59, 123, 456, 789}, 0},
        {7199, 0, all, 1, none, {0, 0, 0, 0, 0, 1, 0, 0, 0, 0, 0}, 3599000000000},
        {7199, 0, all, 1, down, {0, 0, 0, 0, 0, 1, 0, 0, 0, 0, 0}, 0},
        {7199, 0, all, 1, nearest, {0, 0, 0, 0, 0, 2, 0, 0, 0, 0, 0}, 0},
        {193, 29000000, all, 1, nearest, {0, 0, 0, 0, 0, 0, 3, 0, 0, 0, 0}, 0},
        {193, 29000000, all, 1, up, {0, 0, 0, 0, 0, 0, 4, 0, 0, 0, 0}, 0},
        /* A rest of 2^64 - 1 nanoseconds, and counts of 2^64 - 1 milliseconds and seconds */
        {18446744073, 709551615, all, 0, none, {0, 0, 0, 0, 0, 0, 0, 0, 0, 0, 0}, UINT64_MAX},
        {18446744073709551, 615999999, millisecond, 1, none,
            {0, 0, 0, 0, 0, 0, 0, 0, UINT64_MAX, 0, 0}, 999999},
        {UINT64_MAX, 999999999, second, 1, none, {0, 0, 0, 0, 0, 0, 0, UINT64_MAX, 0, 0, 0},
            999999999},
        /* 584,942,417,355 years of 31,536,000 seconds, and 2,271,615 seconds */
        {UINT64_MAX, 0, all, 11, none, {584942417355, 0, 0, 3, 5, 7, 0, 15, 0, 0, 0}, 0},
    };
    for (size_t at = 0; at < sizeof rows / sizeof *rows; at++)
        expect(is_broken_down(&rows[at]), "a breakdown");
    uint64_t counts[DURATION_STR_UNIT_COUNT], rest = 77;
    expect(!duration_str_breakdown(
               18446744073709551, 616000000, millisecond, 1, none, counts, &rest) &&
               !duration_str_breakdown(18446744073, 709551616, all, 0, none, counts, &rest) &&
               !duration_str_breakdown(
                   18446744073709551, 615999999, millisecond, 1, up, counts, &rest) &&
               rest == 77,
        "a count or a rest of 2^64");
    expect(!duration_str_breakdown(UINT64_MAX, 1000000000, all, 11, none, counts, &rest) &&
               !duration_str_breakdown(1, 0, all + 1, 11, none, counts, &rest) &&
               !duration_str_breakdown(1, 0, all, 11, up + 1, counts, &rest) && rest == 77,
        "wrong arguments");
}

struct rounded {
    uint64_t secs, nanos;
    uint32_t units, parts, rounding;
    const char *wanted; /* the empty text if the duration is refused */
};

static void check_rounding(void) {
    const uint32_t none = DURATION_STR_ROUNDING_NONE, down = DURATION_STR_ROUNDING_DOWN,
                   nearest = DURATION_STR_ROUNDING_NEAREST, up = DURATION_STR_ROUNDING_UP,
                   all = DURATION_STR_UNITS_ALL, year = DURATION_STR_UNITS(DURATION_STR_UNIT_YEAR),
                   second = DURATION_STR_UNITS(DURATION_STR_UNIT_SECOND);
    const uint32_t months_and_weeks =
        DURATION_STR_UNITS(DURATION_STR_UNIT_MONTH) | DURATION_STR_UNITS(DURATION_STR_UNIT_WEEK);
    /* 584,942,417,355 years. One more would be more than 2^64 seconds. */
    const uint64_t last_year = 18446744073707280000u;
    const struct rounded rows[] = {
        {7199, 0, all, 1, none, "1h"},
        {7199, 0, all, 1, down, "1h"},
        {7199, 0, all, 1, nearest, "2h"},
        {0, 7199000000000, all, 1, nearest, "2h"},
        {7199, 0, all, 2, down, "1h 59min"},
        {7199, 0, all, 2, up, "2h"},
        {59, 900000000, second, 11, down, "59s"},
        {59, 900000000, second, 11, nearest, "60s"},
        {0, 1001500, all, 2, down, "1ms 1\xc2\xb5s"},
        {0, 1001500, all, 2, nearest, "1ms 2\xc2\xb5s"},
        {5, 7, all, 11, up, "5s 7ns"},
        {29 * 86400, 0, months_and_weeks, 2, nearest, "1mon"},
        {5, 7, all, 0, down, "0s"},
        {5, 7, all, 0, nearest, "0s"},
        {last_year - 1, 1, year, 1, up, "584942417355y"},
        {UINT64_MAX, 999999999, year, 1, nearest, "584942417355y"},
        {UINT64_MAX, 999999999, second, 1, down, "18446744073709551615s"},
        {UINT64_MAX, 1000000000, second, 1, none, ""},
        {5, 7, 0, 1, nearest, ""},
        {5, 7, all + 1, 1, nearest, ""},
        {5, 7, all, 1, up + 1, ""},
        {0, 1, all, 0, up, ""},
        {UINT64_MAX, 0, year, 1, up, ""},
    };
    for (size_t at = 0; at < sizeof rows / sizeof *rows; at++) {
        const struct rounded *row = &rows[at];
        expect(is_rounded(row->secs, row->nanos, row->units, row->parts, row->rounding,
                   DURATION_STR_STYLE_SHORT, row->wanted),
            "a rounded duration");
    }
    expect(is_rounded(7199, 0, all, 1, nearest, DURATION_STR_STYLE_LONG, "2 hours"),
        "a rounded duration in the long style");
}

static void check_unit_names(void) {
    expect(duration_str_unit("y", 1) == DURATION_STR_UNIT_YEAR, "the first unit");
    expect(duration_str_unit("NANOSECONDS", 11) == DURATION_STR_UNIT_NANOSECOND, "the last unit");
    expect(duration_str_unit("mins", 4) == -1, "no name");
}

static void check_lines(void) {
    const char *text = "3h 2 mins",
               *wanted =
                   "3h 2 mins\n     ^\nunknown unit \"mins\" at column 6 (did you mean \"min\"?)",
               *reason = "unknown unit \"mins\" (did you mean \"min\"?)";
    char line[DURATION_STR_ONE_LINE_BUFFER_SIZE], report[DURATION_STR_REPORT_BUFFER_SIZE];
    struct duration_str_answer answer;
    memset(&answer, '#', sizeof answer);
    expect(duration_str_one_line(text, 9, 0, &answer, line) == strlen(wanted) - 17 &&
               strcmp(line, wanted + 17) == 0,
        "one line");
    expect(answer.cause == DURATION_STR_CAUSE_SYNTAX && answer.place == 5,
        "the answer beside the line");
    memset(&answer, '#', sizeof answer);
    expect(duration_str_reason(text, 9, 0, &answer, line) == strlen(reason) &&
               strcmp(line, reason) == 0,
        "a reason");
    expect(answer.cause == DURATION_STR_CAUSE_SYNTAX && answer.place == 5,
        "the answer beside the reason");
    memset(&answer, '#', sizeof answer);
    expect(duration_str_report(text, 9, 0, &answer, report) == strlen(wanted) &&
               strcmp(report, wanted) == 0,
        "a report");
    expect(answer.cause == DURATION_STR_CAUSE_SYNTAX && answer.place == 5,
        "the answer beside the report");
}

struct helped {
    const char *text;
    uint32_t options, help;
    const char *suggestion;
    size_t start, replaced_length;
};

static void check_help(void) {
    const uint32_t more_names = DURATION_STR_OPTION_MORE_NAMES,
                   milliseconds = DURATION_STR_OPTION_DEFAULT_UNIT(DURATION_STR_UNIT_MILLISECOND);
    const struct helped rows[] = {
        {"5 mins", 0, DURATION_STR_HELP_DID_YOU_MEAN, "min", 2, 4},
        {"1h 5 usecs", 0, DURATION_STR_HELP_DID_YOU_MEAN, "us", 5, 5},
        {"2 hrs", 0, DURATION_STR_HELP_DID_YOU_MEAN, "h", 2, 3},
        {"3 mos", more_names, DURATION_STR_HELP_DID_YOU_MEAN, "mon", 2, 3},
        {"2h 5\xce\xbcseconds 3x", 0, DURATION_STR_HELP_DID_YOU_MEAN, "us", 4, 9},
        {"5 parsecs", 0, DURATION_STR_HELP_UNITS, "", 0, 0},
        {"2h 1.5min 3x", 0, DURATION_STR_HELP_FRACTION, "90s", 3, 6},
        {"1m .5 mins", 0, DURATION_STR_HELP_FRACTION, "30s", 3, 7},
        {"18446744073709551.615us", 0, DURATION_STR_HELP_FRACTION, "18446744073709551615ns", 0, 23},
        {"1.5", 0, DURATION_STR_HELP_FRACTION, "1500ms", 0, 3},
        {"1.5", milliseconds, DURATION_STR_HELP_FRACTION, "1500us", 0, 3},
        {"1.5", DURATION_STR_OPTION_REQUIRE_UNIT, DURATION_STR_HELP_FRACTION, "", 0, 0},
        {"1.5*2", 0, DURATION_STR_HELP_FRACTION, "1500ms", 0, 3},
        {"1.5*2", DURATION_STR_OPTION_NO_CALC, DURATION_STR_HELP_FRACTION, "", 0, 0},
        {"1.5H", DURATION_STR_OPTION_LOWERCASE, DURATION_STR_HELP_FRACTION, "", 0, 0},
        {"0.3ns", 0, DURATION_STR_HELP_FRACTION, "", 0, 0},
        {"1_000s", 0, DURATION_STR_HELP_DIGITS_ONLY, "", 1, 1},
        {"1'000s", 0, DURATION_STR_HELP_DIGITS_ONLY, "", 1, 1},
        {"1,000s", 0, DURATION_STR_HELP_DIGITS_ONLY, "", 0, 0},
        {"1:30", 0, DURATION_STR_HELP_CLOCK_TIME, "", 0, 0},
        {"-5m", 0, DURATION_STR_HELP_NEGATIVE, "", 0, 0},
        {" +5m", 0, DURATION_STR_HELP_LEADING_PLUS, "", 1, 1},
        {"PT5M", 0, DURATION_STR_HELP_ISO_8601, "", 0, 2},
        {"PT5M", DURATION_STR_OPTION_LOWERCASE, DURATION_STR_HELP_ISO_8601, "", 0, 0},
        {"P5M", 0, DURATION_STR_HELP_ISO_8601, "", 0, 0},
        {"1h, 30m", 0, DURATION_STR_HELP_ONE_DURATION, "", 0, 0},
        {"5 min.", 0, DURATION_STR_HELP_NO_POINT, "", 5, 1},
        {"5m.in", 0, DURATION_STR_HELP_NO_POINT, "", 0, 0},
        {"5m.5s", 0, DURATION_STR_HELP_NO_POINT, "", 0, 0},
        {"(1h + 30m) * 2", 0, DURATION_STR_HELP_BRACKETS, "", 0, 0},
        {"1h / 2", 0, DURATION_STR_HELP_DIVISION, "", 0, 0},
        {"'5m'", 0, DURATION_STR_HELP_QUOTATION_MARKS, "", 0, 0},
        {"1h 90", DURATION_STR_OPTION_REQUIRE_UNIT, DURATION_STR_HELP_MISSING_UNIT, "", 0, 0},
        {"0 ", DURATION_STR_OPTION_REQUIRE_UNIT, DURATION_STR_HELP_ZERO, "s", 2, 0},
        {"1700000000000000000", 0, DURATION_STR_HELP_LARGE_NUMBER, "", 0, 0},
        {"600", DURATION_STR_OPTION_DEFAULT_UNIT(DURATION_STR_UNIT_YEAR),
            DURATION_STR_HELP_LARGE_NUMBER, "", 0, 0},
        {"1700000000000", milliseconds, DURATION_STR_HELP_NONE, "", 0, 0},
        {"1m+", 0, DURATION_STR_HELP_NONE, "", 0, 0},
        {"600y", 0, DURATION_STR_HELP_NONE, "", 0, 0},
        {"", 0, DURATION_STR_HELP_NONE, "", 0, 0},
        {"5\xff", 0, DURATION_STR_HELP_NONE, "", 0, 0},
        {"1.5h\xff", 0, DURATION_STR_HELP_NONE, "", 0, 0},
        {"1.5h", more_names << 1, DURATION_STR_HELP_NONE, "", 0, 0},
        {"5 mins", more_names, DURATION_STR_HELP_NONE, "", 0, 0},
        {"90", 0, DURATION_STR_HELP_NONE, "", 0, 0},
    };
    for (size_t at = 0; at < sizeof rows / sizeof *rows; at++) {
        const struct helped *row = &rows[at];
        const size_t length = strlen(row->text), end = strlen(row->suggestion) + 1;
        char suggestion[DURATION_STR_SUGGESTION_BUFFER_SIZE + 4], untouched[sizeof suggestion];
        memset(suggestion, '#', sizeof suggestion);
        memset(untouched, '#', sizeof untouched);
        size_t start = 77, replaced_length = 77;
        const uint32_t help = duration_str_help(
            row->text, length, row->options, suggestion, &start, &replaced_length);
        expect(help == row->help, "the help");
        expect(start == row->start && replaced_length == row->replaced_length,
            "the part that is replaced");
        expect(strcmp(suggestion, row->suggestion) == 0, "the suggestion");
        expect(memcmp(suggestion + end, untouched, sizeof suggestion - end) == 0,
            "what follows the suggestion is unchanged");
        expect(duration_str_help(row->text, length, row->options, NULL, NULL, NULL) == row->help,
            "the help without a suggestion");
        start = replaced_length = 77;
        duration_str_help(row->text, length, row->options, NULL, NULL, &replaced_length);
        expect(replaced_length == row->replaced_length, "only the length");
        duration_str_help(row->text, length, row->options, NULL, &start, NULL);
        expect(start == row->start, "only the start");
        memset(suggestion, '#', sizeof suggestion);
        duration_str_help(row->text, length, row->options, suggestion, NULL, NULL);
        expect(strcmp(suggestion, row->suggestion) == 0, "only the suggestion");
    }
    expect(duration_str_help(NULL, 0, 0, NULL, NULL, NULL) == DURATION_STR_HELP_NONE,
        "the help for a null text");
}

int main(void) {
    expect(duration_str_version() == DURATION_STR_VERSION_NUMBER, "the version of the library");
    check_options();
    check_default_units();
    check_refusals();
    check_printing();
    check_breakdowns();
    check_rounding();
    check_unit_names();
    check_lines();
    check_help();
    check_long_texts();
    check_null_texts();
    check_null_results();
    return wrong;
}
