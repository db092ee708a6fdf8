/* Calls the functions of the header twice on any bytes, options and numbers, and looks at what they
 * write, and where. What they answer is compared by header.c and compare. This is libFuzzer's
 * target. With WITH_MAIN it is a program that reads a file of texts, which texts.py makes. */
#include <stddef.h>
#include <stdio.h>
#include <stdlib.h>
#include <string.h>

#include "duration_str.h"

#define HOLDS(what) ((what) ? (void)0 : (fputs("does not hold: " #what "\n", stderr), abort()))
#define FIELDS (offsetof(struct duration_str_answer, later_operator) + 1)

enum {
    LINE,
    REASON,
    REPORT,
    HELP,
    FORMAT,
    FORMAT_WITH,
    TEXTS
};
static const size_t rooms[TEXTS] = {DURATION_STR_ONE_LINE_BUFFER_SIZE,
    DURATION_STR_ONE_LINE_BUFFER_SIZE, DURATION_STR_REPORT_BUFFER_SIZE,
    DURATION_STR_SUGGESTION_BUFFER_SIZE, DURATION_STR_FORMAT_BUFFER_SIZE,
    DURATION_STR_FORMAT_WITH_BUFFER_SIZE};
struct given {
    uint64_t secs, nanos;
    uint32_t units, parts, rounding, style;
};

/* What the calls return and write, and bytes that nothing may write */
struct memory {
    uint64_t said[TEXTS], is_read, is_read_with, help, unit, is_broken_down, unwritten, nanos[2],
        rest[2], counts[DURATION_STR_UNIT_COUNT + 2];
    size_t start[2], replaced[2];
    struct duration_str_answer answers[5];
    char texts[TEXTS][DURATION_STR_REPORT_BUFFER_SIZE + 32];
};

static void call_all(
    const char *text, size_t length, uint32_t bits, struct given of, struct memory *to) {
    to->said[LINE] = duration_str_one_line(text, length, bits, &to->answers[0], to->texts[LINE]);
    to->said[REASON] = duration_str_reason(text, length, bits, &to->answers[3], to->texts[REASON]);
    to->said[REPORT] = duration_str_report(text, length, bits, &to->answers[1], to->texts[REPORT]);
    to->help = duration_str_help(text, length, bits, to->texts[HELP], to->start, to->replaced);
    to->said[HELP] = strnlen(to->texts[HELP], rooms[HELP]);
    to->said[FORMAT] = duration_str_format(of.nanos, to->texts[FORMAT]);
    to->said[FORMAT_WITH] = duration_str_format_with(
        of.secs, of.nanos, of.units, of.parts, of.rounding, of.style, to->texts[FORMAT_WITH]);
    to->is_read = duration_str_parse(text, length, to->nanos);
    to->is_read_with = duration_str_parse_with(text, length, bits, &to->answers[2]);
    to->unit = (uint64_t)duration_str_unit(text, length);
    to->is_broken_down = duration_str_breakdown(
        of.secs, of.nanos, of.units, of.parts, of.rounding, to->counts, to->rest);
}

static struct memory memory[2], wanted[2];

/* The first memory has these bytes as they were written. So must the other one. */
static void written(const void *bytes, size_t count) {
    const size_t place = (size_t)((const char *)bytes - (const char *)memory);
    for (int turn = 0; turn < 2; turn++)
        memcpy((char *)&wanted[turn] + place, bytes, count);
}

/* `texts` is a text in two places, before different characters. */
static void check(char *const *texts, size_t length, uint32_t options, struct given of) {
    const struct memory *to = memory;
    for (int turn = 0; turn < 2; turn++) {
        memset(&memory[turn], turn ? 0x5a : 0xa5, sizeof *memory);
        memcpy(&wanted[turn], &memory[turn], sizeof *memory);
        call_all(texts[turn], length, options, of, &memory[turn]);
        for (int at = 0; at < 4; at++) /* The bytes after the last field can be anything. */
            memcpy((char *)&memory[turn].answers[at] + FIELDS,
                (char *)&wanted[turn].answers[at] + FIELDS, sizeof *memory->answers - FIELDS);
    }
    written(to, offsetof(struct memory, unwritten));
    written(to->nanos, to->is_read * sizeof *to->nanos);
    written(to->rest, to->is_broken_down * sizeof *to->rest);
    written(to->start, sizeof *to->start);
    written(to->replaced, sizeof *to->replaced);
    HOLDS(*to->start <= length && *to->replaced <= length - *to->start);
    written(to->counts, to->is_broken_down * DURATION_STR_UNIT_COUNT * sizeof *to->counts);
    for (int at = 0; at < 4; at++)
        written(&to->answers[at], FIELDS);
    for (int at = 0; at < TEXTS; at++) {
        HOLDS(to->said[at] < rooms[at] && strnlen(to->texts[at], rooms[at]) == to->said[at]);
        written(to->texts[at], to->said[at] + 1);
    }
    HOLDS(memcmp(memory, wanted, sizeof memory) == 0);
    uint64_t nanos;
    HOLDS(duration_str_parse(to->texts[FORMAT], to->said[FORMAT], &nanos) && nanos == of.nanos);
}

/* The first bytes of a text are also numbers, and its sum chooses options. */
int LLVMFuzzerTestOneInput(const uint8_t *data, size_t size) {
    char *texts[] = {malloc(size ? size : 1), malloc(size + 1)};
    struct given of = {0, 0, 0, 0, 0, 0};
    uint32_t sum = 0;
    for (size_t at = 0; at < size; at++) {
        texts[0][at] = (char)data[at];
        texts[1][at] = (char)data[at];
        sum += data[at];
    }
    texts[1][size] = '7';
    memcpy(&of, data, size < sizeof of ? size : sizeof of);
    check(texts, size, of.units, of);
    of.units %= DURATION_STR_UNITS_ALL + 2u;
    of.parts = sum % 13;
    of.rounding %= 5;
    of.style %= 4;
    check(texts, size, sum % (2 * DURATION_STR_OPTION_MORE_NAMES), of);
    if (memory->is_read)
        of.nanos = *memory->nanos;
    of.secs >>= sum % 64;
    check(texts, size, DURATION_STR_OPTION_DEFAULT_UNIT(sum % (DURATION_STR_UNIT_COUNT + 1)), of);
    free(texts[0]);
    free(texts[1]);
    return 0;
}

#ifdef WITH_MAIN
/* Two bytes with the length stand before each text of the file, the lower one first. */
int main(int count, char **words) {
    static uint8_t text[UINT16_MAX];
    FILE *file = count == 2 ? fopen(words[1], "rb") : NULL;
    for (int low; file && (low = getc(file)) != EOF;) {
        const size_t length = (size_t)low | (size_t)getc(file) << 8;
        HOLDS(fread(text, 1, length, file) == length);
        LLVMFuzzerTestOneInput(text, length);
    }
    return !file || ftell(file) <= 0 || fclose(file);
}
#endif
