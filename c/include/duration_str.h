/* Reads durations such as `3m 13s 29ms`, and prints them for people. The
 * header is for C99 and C++11, and later versions.
 *
 * Texts are UTF-8; other bytes are refused. A text is passed as a pointer and
 * a length in bytes, which must be at most PTRDIFF_MAX. A text need not end
 * with a zero byte. Its pointer may be null only if its length is 0. A text
 * must not overlap what a function writes, and must not change during a call.
 * If another thread may change it, or another process in a mapped file, copy
 * the text first.
 *
 * A text that a function writes ends with a zero byte, which the returned
 * length doesn't count. The rest of a buffer is unchanged.
 *
 * No function allocates memory, keeps state, calls back or throws. All
 * functions may be called from several threads at once.
 *
 * `docs/PROMISES.md` in the repository says what is proved, what is tested, and
 * what you trust.
 *
 * A text is one term or several. A term is a number and a unit, such as `3m`
 * or `29 ms`. Terms are joined by `+` or by `*`. If the operator is left out,
 * as in `3m 13s`, the terms are added. A text is a sum or a product, and can't
 * mix both. A product multiplies its terms in seconds: `1m*10ms` is 600 ms.
 * Each of its steps is rounded down to nanoseconds. A number without a unit
 * counts seconds, unless another default unit is named or units are required.
 * Such a number must be last or before an operator. Blanks (space, tab,
 * carriage return, line feed) may be anywhere except inside a number or a
 * unit. Each number must be below 2^64. Each term, each step of the evaluation
 * and the value must be below 2^64 nanoseconds, which is some 584 years.
 *
 * Units: y year years, q quarter quarters, mon month months, w week weeks, d
 * day days, h hr hour hours, m min minute minutes, s sec second seconds, ms
 * msec millisecond milliseconds, µs µsec µsecond us usec usecond microsecond
 * microseconds, ns nsec nanosecond nanoseconds. The Chinese names, which an
 * option adds: 年 year, 月 month, 周 week, 日 天 day, 时 hour, 分 minute, 秒 second,
 * 毫秒 millisecond, 微秒 microsecond, 纳秒 nanosecond. More names, which another
 * option adds: yr yrs, qtr qtrs, mons mth mths, wk wks, hrs, mins, secs,
 * msecs milli millis, µsecs µseconds usecs useconds micro micros, nsecs nano
 * nanos.
 * A year has 365 days, a quarter 91 and a month 30. */
#ifndef DURATION_STR_H
#define DURATION_STR_H

/* LuaJIT, PHP's FFI and Python's cffi have no preprocessor. For them
 * `cpp -P -DDURATION_STR_DECLARATIONS_ONLY duration_str.h` prints the
 * declarations. */
#ifndef DURATION_STR_DECLARATIONS_ONLY
#include <stdbool.h>
#include <stddef.h>
#include <stdint.h>
#endif

/* The version of this header. duration_str_version returns the library's. */
#define DURATION_STR_VERSION_MAJOR 0
#define DURATION_STR_VERSION_MINOR 19
#define DURATION_STR_VERSION_PATCH 0
#define DURATION_STR_VERSION_NUMBER \
    (DURATION_STR_VERSION_MAJOR * 1000000 + \
     DURATION_STR_VERSION_MINOR * 1000 + DURATION_STR_VERSION_PATCH)
#define DURATION_STR_VERSION "0.19.0"

/* No text of duration_str_format has more bytes than this. */
#define DURATION_STR_MAX_PRINTED_LEN 60
/* The size of the buffer that duration_str_format prints into. */
#define DURATION_STR_FORMAT_BUFFER_SIZE 64

/* No text of duration_str_format_with has more bytes than this. */
#define DURATION_STR_MAX_LONG_LEN 134
/* The size of the buffer that duration_str_format_with prints into. */
#define DURATION_STR_FORMAT_WITH_BUFFER_SIZE 144

/* No line of duration_str_one_line has more bytes than this, and no reason of
 * duration_str_reason. */
#define DURATION_STR_MAX_ONE_LINE_LEN 294
/* The size of the buffer that duration_str_one_line and duration_str_reason
 * write into. */
#define DURATION_STR_ONE_LINE_BUFFER_SIZE 384

/* The size of the buffer that duration_str_help writes into. */
#define DURATION_STR_SUGGESTION_BUFFER_SIZE 24

/* The size of the buffer that duration_str_report writes into. */
#define DURATION_STR_REPORT_BUFFER_SIZE 867

/* These macros tell GCC and Clang how long an array is at least (in C), which
 * pointers may not be null, and which results must be used. */
#if defined __GNUC__ && !defined __cplusplus && \
    !defined DURATION_STR_DECLARATIONS_ONLY
#define DURATION_STR_AT_LEAST static
#else
#define DURATION_STR_AT_LEAST
#endif
#if defined __GNUC__ && !defined DURATION_STR_DECLARATIONS_ONLY
#define DURATION_STR_NONNULL(...) __attribute__((nonnull(__VA_ARGS__)))
#define DURATION_STR_MUST_USE __attribute__((warn_unused_result))
#else
#define DURATION_STR_NONNULL(...)
#define DURATION_STR_MUST_USE
#endif

/* Converts an integer. Because of the `| 0`, compilers refuse pointers and
 * fractions. */
#ifdef __cplusplus
#define DURATION_STR_CAST(type, integer) static_cast<type>((integer) | 0)
#else
#define DURATION_STR_CAST(type, integer) ((type)((integer) | 0))
#endif

#ifdef __cplusplus
extern "C" {
#endif

/* The options are bits of a `uint32_t`; 0 turns all of them off. Further bits
 * are those of DURATION_STR_OPTION_DEFAULT_UNIT. If a bit is set that belongs
 * to no option, or if two options can't stand together, every text is refused,
 * with the cause DURATION_STR_CAUSE_UNKNOWN_OPTION. */
enum duration_str_option {
    /* `+` and `*` are not read, and the terms are added one by one */
    DURATION_STR_OPTION_NO_CALC = 1,
    /* ASCII capitals are not read as small letters, so `1M` is not a minute */
    DURATION_STR_OPTION_LOWERCASE = 2,
    /* the Chinese names of the units are read too */
    DURATION_STR_OPTION_CN_UNIT = 4,
    /* a number without a unit is refused, such as in `90` and `1h 30` */
    DURATION_STR_OPTION_REQUIRE_UNIT = 8,
    /* more names of units are read, such as `mins`, `hrs` and `yr` */
    DURATION_STR_OPTION_MORE_NAMES = 16
};

/* With this option a number without a unit counts `unit`, one of
 * `enum duration_str_time_unit`, instead of seconds. For example, with
 * milliseconds `1500` and `1s 500` are 1.5 seconds.
 *
 * For seconds the option is 0. For any other unit it includes
 * DURATION_STR_OPTION_NO_CALC (docs/GRAMMAR.md in the repository says why).
 * Then the option is unknown if you take the bit DURATION_STR_OPTION_NO_CALC
 * out, or if you add DURATION_STR_OPTION_REQUIRE_UNIT. It is also unknown if no
 * unit has the number `unit`. The macro can compute `unit` more than once, so
 * don't write `unit++` there.
 *
 * Bindings that can't call macros, such as those of Go and ctypes, compute it.
 * For seconds it is 0. For any other unit the bits from bit 16 on are the
 * unit's number plus 1, and DURATION_STR_OPTION_NO_CALC is on. So with
 * milliseconds the option is 0x90001. (For seconds 0x80001 is allowed too.) */
#define DURATION_STR_OPTION_DEFAULT_UNIT(unit) \
    (DURATION_STR_CAST(uint64_t, unit) == DURATION_STR_UNIT_SECOND \
         ? UINT32_C(0) \
         : DURATION_STR_OPTION_NO_CALC | \
           (DURATION_STR_CAST(uint64_t, unit) <= DURATION_STR_UNIT_NANOSECOND \
                ? DURATION_STR_CAST(uint32_t, unit) + 1 : 15) << 16)

/* Why a text is refused. No cause has the number 6: in other languages it means
 * a date out of range, and no call here has dates. */
enum duration_str_cause {
    /* no error: the text is read */
    DURATION_STR_CAUSE_READ = 0,
    /* the text is empty */
    DURATION_STR_CAUSE_EMPTY = 1,
    /* the text stops being valid at `place` */
    DURATION_STR_CAUSE_SYNTAX = 2,
    /* a number is 2^64 or more */
    DURATION_STR_CAUSE_NUMBER_TOO_LARGE = 3,
    /* a term, a step of the evaluation or the value is 2^64 nanoseconds or
     * more */
    DURATION_STR_CAUSE_OVERFLOW = 4,
    /* a sum and a product are mixed */
    DURATION_STR_CAUSE_MIXED = 5,
    /* the bytes are not UTF-8 */
    DURATION_STR_CAUSE_NOT_TEXT = 7,
    /* the bits are not options; the text was not read */
    DURATION_STR_CAUSE_UNKNOWN_OPTION = 8
};

#ifndef DURATION_STR_DECLARATIONS_ONLY
/* Returns the name of a cause, such as `NUMBER_TOO_LARGE`. If the number is no
 * cause, returns an empty string. This is an inline function of the header,
 * and no symbol of the library. */
static inline const char *duration_str_cause_name(uint32_t cause)
{
    static const char *const names[] = {
        "READ",  "EMPTY", "SYNTAX",   "NUMBER_TOO_LARGE", "OVERFLOW",
        "MIXED", "",      "NOT_TEXT", "UNKNOWN_OPTION"};
    return cause < sizeof names / sizeof *names ? names[cause] : "";
}
#endif

/* What could stand at the place of a syntax fault: the bits of a `uint32_t`. */
enum duration_str_expected {
    DURATION_STR_EXPECTED_NUMBER = 1,   /* a number */
    DURATION_STR_EXPECTED_UNIT = 2,     /* a unit */
    DURATION_STR_EXPECTED_OPERATOR = 4, /* `+` or `*` */
    DURATION_STR_EXPECTED_END = 8       /* the end of the text */
};

/* What a user may have meant by a refused text, or should write instead. */
/* The enumeration is made by tools/facts --write. */
enum duration_str_help_kind {
    /* no help applies */
    DURATION_STR_HELP_NONE = 0,
    /* The word at the place is no unit, but is near one, such as `mins` is
     * near `min`. */
    DURATION_STR_HELP_DID_YOU_MEAN = 1,
    /* The word at the place is no unit, and is near none. */
    DURATION_STR_HELP_UNITS = 2,
    /* A number has a fraction, such as in `1.5s`. */
    DURATION_STR_HELP_FRACTION = 3,
    /* A number has other characters than digits, such as in `1,000s` and
     * `1e3s`. */
    DURATION_STR_HELP_DIGITS_ONLY = 4,
    /* A number is followed by a colon and another number, as in a clock
     * time. */
    DURATION_STR_HELP_CLOCK_TIME = 5,
    /* The text begins with a minus sign, as a negative number does. */
    DURATION_STR_HELP_NEGATIVE = 6,
    /* The text begins with a plus sign. */
    DURATION_STR_HELP_LEADING_PLUS = 7,
    /* The text begins as a duration of ISO 8601 does, such as `PT5M`. */
    DURATION_STR_HELP_ISO_8601 = 8,
    /* After a unit comes a comma, `&` or `and`, such as in `1h, 30m`. */
    DURATION_STR_HELP_ONE_DURATION = 9,
    /* After a unit comes a point, such as in `5 min.`. */
    DURATION_STR_HELP_NO_POINT = 10,
    /* A bracket is at the place, such as in `(1h + 30m) * 2`. */
    DURATION_STR_HELP_BRACKETS = 11,
    /* A slash is at the place, such as in `1h / 2`. */
    DURATION_STR_HELP_DIVISION = 12,
    /* The text begins with a quotation mark. */
    DURATION_STR_HELP_QUOTATION_MARKS = 13,
    /* A number lacks its unit, which is required. */
    DURATION_STR_HELP_MISSING_UNIT = 14,
    /* A zero lacks its unit, which is required. */
    DURATION_STR_HELP_ZERO = 15,
    /* A number without a unit is too large in the default unit. */
    DURATION_STR_HELP_LARGE_NUMBER = 16
};

/* The units, the longest first. */
/* The enumeration is made by tools/facts --write. */
enum duration_str_time_unit {
    DURATION_STR_UNIT_YEAR = 0,
    DURATION_STR_UNIT_QUARTER = 1,
    DURATION_STR_UNIT_MONTH = 2,
    DURATION_STR_UNIT_WEEK = 3,
    DURATION_STR_UNIT_DAY = 4,
    DURATION_STR_UNIT_HOUR = 5,
    DURATION_STR_UNIT_MINUTE = 6,
    DURATION_STR_UNIT_SECOND = 7,
    DURATION_STR_UNIT_MILLISECOND = 8,
    DURATION_STR_UNIT_MICROSECOND = 9,
    DURATION_STR_UNIT_NANOSECOND = 10
};

/* All units, as a set. A set of units is a `uint32_t` with a bit for each
 * unit. */
#define DURATION_STR_UNITS_ALL UINT32_C(0x7FF)

/* The set of one unit of `enum duration_str_time_unit`. Sets are joined by
 * `|`. */
#define DURATION_STR_UNITS(unit) (UINT32_C(1) << (unit))

/* The set of the units from `largest` to `smallest`. The set is empty, which
 * is 0, if `largest` is shorter than `smallest`. duration_str_format_with
 * and duration_str_breakdown refuse the empty set. */
#define DURATION_STR_UNITS_BETWEEN(largest, smallest) \
    (((UINT32_C(2) << (smallest)) - 1) & (UINT32_MAX << (largest)))

/* How many units there are. */
#define DURATION_STR_UNIT_COUNT 11

/* How a duration is printed. */
enum duration_str_style {
    DURATION_STR_STYLE_SHORT = 0,   /* `1h 30min` */
    DURATION_STR_STYLE_COMPACT = 1, /* `1h30min` */
    DURATION_STR_STYLE_LONG = 2     /* `1 hour 30 minutes` */
};

/* How a duration is rounded before it is printed or broken down. It becomes one
 * whose text in the same units and parts leaves nothing out. So it has no
 * rest. */
enum duration_str_rounding {
    /* not at all: what doesn't fit into the units and parts is the rest */
    DURATION_STR_ROUNDING_NONE = 0,
    /* to the longest one that is not above it, which has the same text */
    DURATION_STR_ROUNDING_DOWN = 1,
    /* to the nearest one, or to the longer of two that are equally near */
    DURATION_STR_ROUNDING_NEAREST = 2,
    /* to the shortest one that is not below it */
    DURATION_STR_ROUNDING_UP = 3
};

/* The answer to a text: its value, or why it is refused. A field that doesn't
 * apply is 0. */
struct duration_str_answer {
    /* if the text is read: its value in nanoseconds */
    uint64_t nanos;
    /* if `has_place` is 1: the place of the fault, as a byte offset from 0 to
     * the text's length */
    size_t place;
    /* for DURATION_STR_CAUSE_SYNTAX: the length in bytes of the token at
     * `place`, or 0 at the end of the text */
    size_t found_length;
    /* an `enum duration_str_cause` */
    uint32_t cause;
    /* for DURATION_STR_CAUSE_SYNTAX: what could stand at `place`, as bits of
     * `enum duration_str_expected` */
    uint32_t expected;
    /* 1 if the fault has a place, and otherwise 0; it has one for
     * DURATION_STR_CAUSE_SYNTAX, and if the cause is that the first term is too
     * large */
    uint8_t has_place;
    /* for DURATION_STR_CAUSE_MIXED: the first operator, '+' or '*'; an operator
     * that is left out is '+' */
    char first_operator;
    /* for DURATION_STR_CAUSE_MIXED: the other operator */
    char later_operator;
};

/* Reads a text with all options off. If the text is read, returns true and
 * writes its value in nanoseconds to `*nanos`. If it is refused, returns false
 * and leaves `*nanos` unchanged. */
DURATION_STR_MUST_USE DURATION_STR_NONNULL(3)
bool duration_str_parse(const char *text, size_t length, uint64_t *nanos);

/* Prints a duration of `nanos` nanoseconds, such as `3min 13s 29ms`, to the
 * start of `buffer`, which has DURATION_STR_FORMAT_BUFFER_SIZE bytes. Returns
 * the length of the text, at most DURATION_STR_MAX_PRINTED_LEN. */
DURATION_STR_NONNULL(2)
size_t duration_str_format(
    uint64_t nanos,
    char buffer[DURATION_STR_AT_LEAST DURATION_STR_FORMAT_BUFFER_SIZE]);

/* Prints a duration to the start of `buffer`, which has
 * DURATION_STR_FORMAT_WITH_BUFFER_SIZE bytes. Returns the length of the text,
 * at most DURATION_STR_MAX_LONG_LEN.
 *
 * The duration is `secs` seconds and `nanos` nanoseconds together, and `nanos`
 * may be a second or more. So you give a value that was read as 0 and `nanos`,
 * a number of seconds as `secs` and 0, and a `struct timespec` as its fields.
 * Neither may be negative before it becomes unsigned, as in a difference of two
 * structures: -1 nanosecond would be some 584 years.
 *
 * `units` is the set of the chosen units, and `parts` is the greatest number of
 * parts. `rounding` is one of `enum duration_str_rounding`, and `style` is one
 * of `enum duration_str_style`.
 *
 * The text has as many of the largest chosen unit as fit into the duration,
 * then as many of the next one as fit into the rest, and so on. Counts of 0
 * are left out. A count with its unit is a part. After the greatest number of
 * parts, the rest is left out. If there are no parts, the text is a zero of
 * the smallest chosen unit, such as `0 hours` or `0h`, or of seconds if that
 * unit is shorter than a second.
 *
 * For example, 90,061 seconds in two parts are `1d 1h`, and 180 days in all
 * units without the quarter and the week are `6mon`. In one part, 7,199
 * seconds, which are 1h 59min 59s, are `1h`, or `2h` if they are rounded to the
 * nearest. This prints `2h`:
 *
 *     char text[DURATION_STR_FORMAT_WITH_BUFFER_SIZE];
 *     duration_str_format_with(7199, 0, DURATION_STR_UNITS_ALL, 1,
 *                              DURATION_STR_ROUNDING_NEAREST,
 *                              DURATION_STR_STYLE_SHORT, text);
 *     puts(text);
 *
 * Returns 0, and the text is empty, if the duration is 2^64 seconds or more, if
 * `rounding` is above 3, if `style` is above 2, if `units` is the empty set or
 * above DURATION_STR_UNITS_ALL, or if there is nothing to round up to. The last
 * can be only if `parts` is 0, or above some 584 billion years. */
DURATION_STR_NONNULL(7)
size_t duration_str_format_with(
    uint64_t secs, uint64_t nanos, uint32_t units, uint32_t parts,
    uint32_t rounding, uint32_t style,
    char buffer[DURATION_STR_AT_LEAST DURATION_STR_FORMAT_WITH_BUFFER_SIZE]);

/* Breaks a duration of `secs` seconds and `nanos` nanoseconds together down
 * into the units of the set `units`, in at most `parts` parts. The arguments up
 * to `rounding` are those of duration_str_format_with.
 *
 * Returns true, and writes to `counts` how many there are of each unit. The
 * count of a unit is at the unit's number in `enum duration_str_time_unit`. It
 * is 0 if the unit has no part. Writes to `*rest` the nanoseconds that no part
 * has. `rest` must not point into `counts`. It may be null if you don't want
 * the rest.
 *
 * The parts are those that the printed text has, so a duration of 0 has none.
 * The counts, each times the length of its unit, and the rest are together the
 * duration.
 *
 * If the duration is rounded, the parts are those of the rounded duration, and
 * the rest is 0.
 *
 * For example, 193 seconds and 29,000,000 nanoseconds in two parts of all units
 * are 3 minutes and 13 seconds, and the rest is 29,000,000. If `parts` is 0, all
 * counts are 0, and the rest is the whole duration. This prints 3,723 seconds as
 * `1:02:03`:
 *
 *     const uint32_t units = DURATION_STR_UNITS_BETWEEN(
 *         DURATION_STR_UNIT_HOUR, DURATION_STR_UNIT_SECOND);
 *     uint64_t counts[DURATION_STR_UNIT_COUNT];
 *     if (duration_str_breakdown(3723, 0, units, 3, DURATION_STR_ROUNDING_NONE,
 *                                counts, NULL))
 *         printf("%" PRIu64 ":%02" PRIu64 ":%02" PRIu64 "\n",
 *                counts[DURATION_STR_UNIT_HOUR],
 *                counts[DURATION_STR_UNIT_MINUTE],
 *                counts[DURATION_STR_UNIT_SECOND]);
 *
 * Returns false, and leaves `counts` and `*rest` unchanged, if the duration is
 * 2^64 seconds or more, if `rounding` is above 3, if `units` is the empty set or
 * above DURATION_STR_UNITS_ALL, if there is nothing to round up to, or if a
 * count or the rest is 2^64 or more. A count can be that large only if each unit
 * in the set is shorter than a second, and the rest only if `parts` is 0. */
DURATION_STR_MUST_USE DURATION_STR_NONNULL(6)
bool duration_str_breakdown(
    uint64_t secs, uint64_t nanos, uint32_t units, uint32_t parts,
    uint32_t rounding,
    uint64_t counts[DURATION_STR_AT_LEAST DURATION_STR_UNIT_COUNT],
    uint64_t *rest);

/* Reads a text under these options. Returns true if it is read. Writes to
 * `*answer` the value, or why the text is refused. */
DURATION_STR_NONNULL(4)
bool duration_str_parse_with(const char *text, size_t length,
                             uint32_t options,
                             struct duration_str_answer *answer);

/* Reads a text as duration_str_parse_with does, except that `answer` may be
 * null if you want only the line. If the text is refused, writes what is wrong
 * with it to the start of `buffer`, in one line for people:
 * `unknown unit "mins" at column 3 (did you mean "min"?)`. `buffer` has
 * DURATION_STR_ONE_LINE_BUFFER_SIZE bytes.
 *
 * Returns the length of the line, at most DURATION_STR_MAX_ONE_LINE_LEN. If the
 * text is read, returns 0, and the line is empty.
 *
 * The line quotes at most 40 characters of the text. In the quote, `"`,
 * backslashes, control characters and most characters that can't be seen are
 * escaped. For bits that are not options the line is `unknown option`.
 * Otherwise, for bytes that are not UTF-8, it is `not UTF-8`. */
DURATION_STR_NONNULL(5)
size_t duration_str_one_line(
    const char *text, size_t length, uint32_t options,
    struct duration_str_answer *answer,
    char buffer[DURATION_STR_AT_LEAST DURATION_STR_ONE_LINE_BUFFER_SIZE]);

/* Does what duration_str_one_line does, except that it writes the reason: the
 * line without ` at column 3` or the like. It is for programs that say the
 * place themselves: `app.conf:7:14: unknown unit "mins" (did you mean "min"?)`.
 * If the cause is not a syntax fault, the line has no column, and the reason is
 * the same. */
DURATION_STR_NONNULL(5)
size_t duration_str_reason(
    const char *text, size_t length, uint32_t options,
    struct duration_str_answer *answer,
    char buffer[DURATION_STR_AT_LEAST DURATION_STR_ONE_LINE_BUFFER_SIZE]);

/* Reads a text as duration_str_one_line does, so `answer` may be null here too.
 * If the text is refused, writes a report for a terminal to the start of
 * `buffer`: the text, below it a caret under the place, and below that the line
 * of duration_str_one_line. `buffer` has DURATION_STR_REPORT_BUFFER_SIZE bytes,
 * in which each report and its zero byte fit. Returns the length of the report,
 * or 0 if the text is read.
 *
 * The report is the line alone if the cause is not a syntax fault, if the text
 * has more than 80 characters, or if the line would escape one of them. Before
 * the caret there is a space for each character before the place, and two for a
 * Chinese letter. */
DURATION_STR_NONNULL(5)
size_t duration_str_report(
    const char *text, size_t length, uint32_t options,
    struct duration_str_answer *answer,
    char buffer[DURATION_STR_AT_LEAST DURATION_STR_REPORT_BUFFER_SIZE]);

/* Reads a text as duration_str_parse_with does, and returns the help for it:
 * what the user may have meant, or should write instead. The help is one of
 * `enum duration_str_help_kind`. The line of duration_str_one_line ends with
 * the same help in words. If the line has no help, or if the text is read,
 * returns DURATION_STR_HELP_NONE, which is 0.
 *
 * If it is certain what to write in place of a part of the text, writes three
 * things: to `suggestion` what to write, such as `90min` for `1.5h`, to
 * `*start` the byte at which the part begins, and to `*replaced_length` its
 * length in bytes. The suggestion is empty if the part is to be removed, such
 * as the sign of `+5m`. The length is 0 if something is to be inserted. If
 * nothing is certain, writes the empty text and two zeros. So something is
 * certain if `*suggestion || *replaced_length`.
 *
 * With the suggestion in place of that part, the text can be refused again, such
 * as `2h 1.5min` for `2hrs 1.5min`. But no syntax fault is before the end of the
 * suggestion. So a program can put one suggestion after the other into a text.
 * This ends, since each of them leaves fewer bytes after it than the one before.
 *
 * `suggestion` has DURATION_STR_SUGGESTION_BUFFER_SIZE bytes. Each of the three
 * pointers may be null. */
uint32_t duration_str_help(
    const char *text, size_t length, uint32_t options,
    char suggestion[DURATION_STR_SUGGESTION_BUFFER_SIZE], size_t *start,
    size_t *replaced_length);

/* Finds a unit by its name, such as `h`, `ms` or `minutes`. Returns the unit's
 * number in `enum duration_str_time_unit`, or -1 if no unit has this name or if
 * the bytes are not UTF-8.
 *
 * The name is passed like a text. It is one of the names of units above, and
 * its ASCII letters may be capitals. The names that an option adds give -1,
 * such as the Chinese ones and `mins`. So do the empty name, and texts such as
 * `5min` and ` min`.
 *
 * The number 0 is the year, so compare the result with -1. Do so before you
 * pass it to DURATION_STR_UNITS or DURATION_STR_UNITS_BETWEEN. */
DURATION_STR_MUST_USE
int32_t duration_str_unit(const char *name, size_t length);

/* Returns the version of the library, in the form of
 * DURATION_STR_VERSION_NUMBER. */
uint32_t duration_str_version(void);

#ifdef __cplusplus
}
#endif

#endif
