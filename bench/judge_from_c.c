/*
 * Times the judge that is linked into a program: it reads a log into memory, hands its lines over one by one, and
 * prints the processor's ns for a line, the least of the rounds; then the same for the whole log by one call. How
 * long each line is was found before, since a program that makes a line knows its length.
 *
 *     judge_from_c LOG ROUNDS
 */
#include <capcheck_judge.h>

#include <stdio.h>
#include <stdlib.h>
#include <string.h>
#include <time.h>

static void stop(const char *why) {
    fprintf(stderr, "judge_from_c: %s\n", why);
    exit(2);
}

static double now(void) {
    struct timespec spent;
    if (clock_gettime(CLOCK_PROCESS_CPUTIME_ID, &spent) != 0)
        stop("no clock");
    return (double)spent.tv_sec * 1e9 + (double)spent.tv_nsec;
}

static char bytes[1 << 26];

/* The length of each line, with its line feed. */
static uint8_t lengths[1 << 23];

/* Finds how long each line is, and answers how many there are. */
static size_t find_lines(size_t length) {
    size_t count = 0;
    for (size_t line = 0; line < length; count++) {
        const char *end = (const char *)memchr(bytes + line, '\n', length - line);
        if (end == NULL || end - (bytes + line) > 95 || count == sizeof lengths)
            stop("a line is cut or too long, or there are too many");
        lengths[count] = (uint8_t)(end - (bytes + line) + 1);
        line += lengths[count];
    }
    return count;
}

/* Hands the lines over. */
static void by_lines(size_t count) {
    capcheck_judge judge = CAPCHECK_NO_JUDGE_YET;
    const char *line = bytes;
    if (capcheck_judge_open(&judge) != CAPCHECK_GOES_ON)
        stop("no memory");
    for (size_t at = 0; at < count; at++) {
        if (capcheck_judge_line(&judge, line, lengths[at]) != CAPCHECK_GOES_ON)
            stop("a line isn't taken, or at fault");
        line += lengths[at];
    }
    if (capcheck_judge_end(&judge).state != CAPCHECK_YES)
        stop("the verdict isn't a yes");
    capcheck_judge_close(&judge);
}

int main(int argc, char **argv) {
    FILE *file = argc == 3 ? fopen(argv[1], "rb") : NULL;
    if (file == NULL)
        stop("judge_from_c LOG ROUNDS");
    size_t length = fread(bytes, 1, sizeof bytes, file);
    size_t count = find_lines(length);
    double lines = 0, one_call = 0;
    for (int round = 0; round < atoi(argv[2]); round++) {
        double begun = now();
        by_lines(count);
        double between = now();
        if (capcheck_judge_bytes((const uint8_t *)bytes, length).state != CAPCHECK_YES)
            stop("the verdict isn't a yes");
        double ended = now();
        if (round == 0 || between - begun < lines)
            lines = between - begun;
        if (round == 0 || ended - between < one_call)
            one_call = ended - between;
    }
    printf("by lines %.1f, by one call %.1f\n", lines / (double)count, one_call / (double)count);
    return 0;
}
