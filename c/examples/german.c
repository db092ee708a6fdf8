/* `german TEXT..` says in German what is wrong with each text, without the library's words. */
#include <stdbool.h>
#include <stdio.h>
#include <string.h>

#include "duration_str.h"

static const char *const causes[] = {[DURATION_STR_CAUSE_EMPTY] = "leere Eingabe",
    [DURATION_STR_CAUSE_NUMBER_TOO_LARGE] = "zu große Zahl",
    [DURATION_STR_CAUSE_OVERFLOW] = "mehr als 584 Jahre",
    [DURATION_STR_CAUSE_MIXED] = "Summe und Produkt gemischt",
    [DURATION_STR_CAUSE_NOT_TEXT] = "kein UTF-8"};
static const char *const helps[] = {
    [DURATION_STR_HELP_UNITS] = "Einheiten: y, q, mon, w, d, h, min, s, ms, us, ns",
    [DURATION_STR_HELP_FRACTION] = "Zahlen haben nur Ziffern",
    [DURATION_STR_HELP_DIGITS_ONLY] = "Zahlen haben nur Ziffern",
    [DURATION_STR_HELP_CLOCK_TIME] = "keine Uhrzeiten: 1h 30m oder 1m 30s",
    [DURATION_STR_HELP_NEGATIVE] = "keine negativen Dauern",
    [DURATION_STR_HELP_LEADING_PLUS] = "kein Plus am Anfang",
    [DURATION_STR_HELP_ISO_8601] = "kein ISO 8601: zum Beispiel 1mon 30m",
    [DURATION_STR_HELP_ONE_DURATION] = "nur eine Dauer, ohne Komma oder Bindewort",
    [DURATION_STR_HELP_NO_POINT] = "Einheiten haben keinen Punkt",
    [DURATION_STR_HELP_BRACKETS] = "keine Klammern",
    [DURATION_STR_HELP_DIVISION] = "Teilen geht nicht",
    [DURATION_STR_HELP_QUOTATION_MARKS] = "ohne Anführungszeichen",
    [DURATION_STR_HELP_MISSING_UNIT] = "mit Einheit: y, q, mon, w, d, h, min, s, ms, us, ns",
    [DURATION_STR_HELP_ZERO] = "besser 0s",
    [DURATION_STR_HELP_LARGE_NUMBER] = "mit Einheit, etwa ns"};
static const char *const kinds[] = {"einer Zahl", "einer Einheit", "+ oder *", "des Endes"};
/* A later version can have more causes and helps. For those there are other words. */
#define WORDS(list, at, other) ((at) < sizeof list / sizeof *list && list[at] ? list[at] : other)

/* On a terminal, other characters can hide the line or change its order. */
static bool is_shown(char byte) { return byte >= ' ' && byte <= '~'; }

static bool are_shown(const char *text, size_t length) {
    for (size_t at = 0; at < length; at++)
        if (!is_shown(text[at]))
            return false;
    return true;
}

static void put(const char *text, size_t length) {
    for (size_t at = 0; at < length; at++)
        putchar(is_shown(text[at]) ? text[at] : '?');
}

static void say_syntax(const char *text, const struct duration_str_answer *answer) {
    size_t column = 1;
    for (size_t at = 0; at < answer->place; at++)
        column += ((unsigned char)text[at] & 0xc0) != 0x80; /* the first byte of a character */
    printf("Spalte %zu: %s", column, answer->found_length ? "„" : "das Ende");
    put(text + answer->place, answer->found_length);
    fputs(answer->found_length ? "“" : "", stdout);
    for (unsigned bit = 0; bit < sizeof kinds / sizeof *kinds; bit++)
        if (answer->expected & 1u << bit)
            printf(" %s %s", answer->expected & ((1u << bit) - 1) ? "oder" : "statt", kinds[bit]);
}

int main(int count, char **words) {
    for (int at = 1; at < count; at++) {
        struct duration_str_answer answer;
        const size_t length = strlen(words[at]);
        char better[DURATION_STR_SUGGESTION_BUFFER_SIZE];
        size_t start, replaced;
        if (duration_str_parse_with(words[at], length, 0, &answer))
            continue;
        const uint32_t help = duration_str_help(words[at], length, 0, better, &start, &replaced);
        if (answer.cause == DURATION_STR_CAUSE_SYNTAX)
            say_syntax(words[at], &answer);
        else
            fputs(WORDS(causes, answer.cause, "keine Dauer"), stdout);
        const char *const part = words[at] + start;
        if (replaced && are_shown(part, replaced)) {
            if (*better)
                printf(" (besser „%s“ statt „%.*s“)", better, (int)replaced, part);
            else
                printf(" (ohne „%.*s“)", (int)replaced, part);
        } else if (*WORDS(helps, help, "")) {
            printf(" (%s)", WORDS(helps, help, ""));
        } else if (*better) {
            printf(" (besser „%s“)", better);
        }
        putchar('\n');
    }
}
