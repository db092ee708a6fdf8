/* `duration EXPRESSION` prints the expression's value in nanoseconds, that value as a printed
 * duration, and the moment that much after 2000-01-01T00:00:00Z, in seconds since 1970. Or it
 * prints the library's report of what is wrong with the expression. */
#include <stdio.h>
#include <string.h>

#include "duration_str.h"

int main(int count, char **words) {
    if (count != 2) {
        fprintf(stderr, "usage: %s EXPRESSION\n", words[0]);
        return 2;
    }
    struct duration_str_answer answer;
    char told[DURATION_STR_REPORT_BUFFER_SIZE];
    if (duration_str_report(words[1], strlen(words[1]), 0, &answer, told) > 0) {
        puts(told);
        return 1;
    }
    duration_str_format(answer.nanos, told);
    unsigned long long nanos = answer.nanos, secs = 946684800 + nanos / 1000000000;
    printf("%llu %s %llu.%09llu\n", nanos, told, secs, nanos % 1000000000);
    return 0;
}
