/* Reads the longest texts that a 32-bit program can have, in which places and lengths are the
 * greatest: an unknown word after blanks, and after a number. tests/processors runs it over a
 * library that stops where a sum overflows. */
#define _GNU_SOURCE
#include <stdint.h>
#include <stdio.h>
#include <string.h>
#include <sys/mman.h>
#include <unistd.h>

#include "duration_str.h"

#define PIECE (1u << 20)
#define PIECES ((1u << 31) / PIECE)
#define LENGTH ((size_t)INT32_MAX)

/* All pieces but the first and the last are the same memory. */
static char *longest(void) {
    int file = memfd_create("piece", 0);
    char *text = mmap(NULL, (size_t)PIECE * PIECES, PROT_NONE,
        MAP_PRIVATE | MAP_ANONYMOUS | MAP_NORESERVE, -1, 0);
    if (file < 0 || ftruncate(file, PIECE) != 0 || text == MAP_FAILED)
        return NULL;
    for (unsigned at = 0; at < PIECES; at++) {
        int shared = at > 0 && at + 1 < PIECES ? MAP_SHARED : MAP_PRIVATE;
        if (mmap(text + (size_t)at * PIECE, PIECE, PROT_READ | PROT_WRITE, shared | MAP_FIXED, file,
                0) == MAP_FAILED)
            return NULL;
    }
    return text;
}

/* Refuses a text that is `middle` between the first and the last character, and returns whether the
 * line has these words. */
static bool is_refused(
    char *text, char first, char middle, char last, size_t place, size_t found, const char *words) {
    char *end = text + LENGTH - PIECE;
    memset(text, middle, PIECE);
    memset(text + PIECE, middle, PIECE);
    memset(end, middle, PIECE);
    text[0] = first;
    end[PIECE - 1] = last;
    struct duration_str_answer answer;
    char line[DURATION_STR_REPORT_BUFFER_SIZE];
    duration_str_report(text, LENGTH, 0, &answer, line);
    puts(line);
    return answer.place == place && answer.found_length == found && strstr(line, words);
}

int main(void) {
    char *text = longest();
    if (!text) {
        perror("longest");
        return 1;
    }
    return !is_refused(text, ' ', ' ', 'x', LENGTH - 1, 1, "a number at column 2147483647,") ||
           !is_refused(text, '1', 'x', 'x', 1, LENGTH - 1, "unknown unit \"x");
}
