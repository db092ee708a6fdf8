/* A program like durstr, which calls the library for C. For a refused line it writes the report of
 * duration_str_report. It also knows the words `require_unit`, `more_names` and, for example,
 * `default_unit=ms`. tests/processors builds it for several processors, and compares what they
 * write. */
#include <inttypes.h>
#include <stdio.h>
#include <stdlib.h>
#include <string.h>

#ifdef _WIN32
#include <fcntl.h>
#include <io.h>
#endif

#include "duration_str.h"

static uint32_t option_of(const char *word) {
    const char *const names[] = {"no_calc", "lowercase", "cn_unit", "require_unit", "more_names"};
    for (uint32_t bit = 0; bit < sizeof names / sizeof *names; bit++)
        if (strcmp(word, names[bit]) == 0)
            return UINT32_C(1) << bit;
    const char *unit = strchr(word, '=');
    int32_t number = unit ? duration_str_unit(unit + 1, strlen(unit + 1)) : -1;
    if (number < 0) {
        fprintf(stderr, "unknown word %s\n", word);
        exit(2);
    }
    return DURATION_STR_OPTION_DEFAULT_UNIT(number);
}

int main(int count, char **words) {
    uint32_t options = 0;
    for (int at = 1; at < count; at++)
        options |= option_of(words[at]);
#ifdef _WIN32
    _setmode(0, _O_BINARY);
    _setmode(1, _O_BINARY);
#endif
    static char input[1 << 20];
    const char *line = input, *end = input + fread(input, 1, sizeof input, stdin);
    int status = 0;
    while (line < end) {
        const char *feed = memchr(line, '\n', (size_t)(end - line));
        const size_t length = (size_t)((feed ? feed : end) - line);
        struct duration_str_answer answer;
        char output[DURATION_STR_REPORT_BUFFER_SIZE];
        if (duration_str_report(line, length, options, &answer, output) > 0) {
            puts(output);
            status = 1;
        } else {
            duration_str_format(answer.nanos, output);
            printf("%" PRIu64 " %s\n", answer.nanos, output);
        }
        line = feed ? feed + 1 : end;
    }
    return status;
}
