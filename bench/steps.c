/*
 * Hands one step over to a judge that is linked in, again and again, by its numbers, or by the line that it writes each time; to a
 * judge of run logs by its kind and its numbers:
 *
 *     steps KIND COUNT step|line
 *
 * bench/steps.sh counts by it how many instructions that takes. Each step is one that the rules allow; it complains where the
 * judge finds a fault. Compiled with -DRUN the judge is one of run logs.
 */
#include <capcheck_judge.h>

#include <stdio.h>
#include <stdlib.h>
#include <string.h>

/* The root has all permissions over all of memory, and the same at another address is AT(address). */
#define ALL 0xffff1ffffc018004u
#define AT(address) CAP(1, ALL, address)
#define CAP(tag, high, low) ((capcheck_cap){{(high), (low)}, (tag)})

#ifdef RUN
#define ASK(question) capcheck_run_judge_##question
#define READY(kind, ...) step = capcheck_read_run_line(line, capcheck_line_##kind(line, __VA_ARGS__))
#define STEP(kind, ...) capcheck_run_step(&judge, &step)
#define OPEN() capcheck_run_judge_open(&judge, (capcheck_asks)CAPCHECK_ASKS_HELD)
#define FIRST "run 1\nmode strict\n"
static capcheck_run_judge judge = CAPCHECK_NO_RUN_JUDGE_YET;
static capcheck_run_line step;
#else
#define ASK(question) capcheck_judge_##question
#define READY(kind, ...) (void)line
#define STEP(kind, ...) capcheck_judge_##kind(&judge, __VA_ARGS__)
#define OPEN() capcheck_judge_open(&judge)
#define FIRST "capcheck 1\n"
static capcheck_judge judge = CAPCHECK_NO_JUDGE_YET;
#endif

static void stop(const char *why) {
    fprintf(stderr, "steps: %s\n", why);
    exit(2);
}

static void must_go_on(uint8_t state) {
    if (state != CAPCHECK_GOES_ON)
        stop("a step is refused");
}

/* Makes a step once. */
#define DONE(kind, ...)                                                                                          \
    do {                                                                                                         \
        READY(kind, __VA_ARGS__);                                                                                \
        must_go_on(STEP(kind, __VA_ARGS__));                                                                     \
    } while (0)

/* The lines before the first step, and the steps that give each kind what it works on. */
static void begin(void) {
    char line[CAPCHECK_LINE_SIZE];
    static const char first[] = FIRST "root c1 ffff1ffffc0180040000000000000000\n";
    must_go_on(OPEN());
    if (ASK(lines)(&judge, first, sizeof first - 1).bytes != sizeof first - 1)
        stop("the first lines are refused");
    DONE(setaddr, 2, 1, 0x1000, AT(0x1000));
    DONE(setaddr, 3, 1, 5, AT(5));
    DONE(seal, 4, 2, 3, CAP(1, 0xffff00002c018004u, 0x1000));
    DONE(sc, 1, 2, 0);
    DONE(store, 2, 16, 8, 0x0123456789abcdefu);
}

/* A kind of step with its operands, again and again. */
#define AGAIN(kind, ...)                                                                                         \
    if (by_lines)                                                                                                \
        for (unsigned long i = 0; i < count; i++)                                                                \
            must_go_on(ASK(line)(&judge, line, capcheck_line_##kind(line, __VA_ARGS__)));                         \
    else {                                                                                                       \
        READY(kind, __VA_ARGS__);                                                                                \
        for (unsigned long i = 0; i < count; i++)                                                                \
            must_go_on(STEP(kind, __VA_ARGS__));                                                                 \
    }

int main(int argc, char **argv) {
    if (argc != 4)
        stop("steps KIND COUNT step|line");
    const char *kind = argv[1];
    unsigned long count = strtoul(argv[2], NULL, 10);
    bool by_lines = strcmp(argv[3], "line") == 0;
    char line[CAPCHECK_LINE_SIZE];
    begin();
    if (strcmp(kind, "move") == 0) {
        AGAIN(move, 9, 1, AT(0))
    } else if (strcmp(kind, "cleartag") == 0) {
        AGAIN(cleartag, 9, 2, CAP(0, ALL, 0x1000))
    } else if (strcmp(kind, "setbounds") == 0) {
        AGAIN(setbounds, 9, 2, 64, CAP(1, 0xffff1ffff8101000u, 0x1000))
    } else if (strcmp(kind, "setbounds-long") == 0) {
        AGAIN(setbounds, 9, 2, 0x18700, CAP(1, 0xffff1ffffe5c0104u, 0x1000))
    } else if (strcmp(kind, "setboundsexact") == 0) {
        AGAIN(setboundsexact, 9, 2, 64, CAP(1, 0xffff1ffff8101000u, 0x1000))
    } else if (strcmp(kind, "setboundsexact-long") == 0) {
        AGAIN(setboundsexact, 9, 2, 0x18700, CAP(1, 0xffff1ffffe5c0104u, 0x1000))
    } else if (strcmp(kind, "setaddr") == 0) {
        AGAIN(setaddr, 9, 1, 0x2000, AT(0x2000))
    } else if (strcmp(kind, "andperm") == 0) {
        AGAIN(andperm, 9, 2, 0x3d, CAP(1, 0x003d1ffffc018004u, 0x1000))
    } else if (strcmp(kind, "seal") == 0) {
        AGAIN(seal, 9, 2, 3, CAP(1, 0xffff00002c018004u, 0x1000))
    } else if (strcmp(kind, "unseal") == 0) {
        AGAIN(unseal, 9, 4, 3, AT(0x1000))
    } else if (strcmp(kind, "lc") == 0) {
        AGAIN(lc, 9, 2, 0, AT(0))
    } else if (strcmp(kind, "sc") == 0) {
        AGAIN(sc, 1, 2, 0)
    } else if (strcmp(kind, "load") == 0) {
        AGAIN(load, 2, 16, 8, 0x0123456789abcdefu)
    } else if (strcmp(kind, "load-byte") == 0) {
        AGAIN(load, 2, 16, 1, 0xef)
    } else if (strcmp(kind, "store") == 0) {
        AGAIN(store, 2, 16, 8, 0x0123456789abcdefu)
    } else {
        stop("no such kind");
    }
    ASK(close)(&judge);
    return 0;
}
