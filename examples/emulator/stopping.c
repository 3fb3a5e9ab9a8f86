/*
 * A program that has the judge linked in, and stops at the first faulty line. It reads the lines of a log from standard
 * input, as an emulator makes them one by one, and passes each to the judge before it reads the next:
 *
 *     stopping < examples/kept_tag.log
 *
 * It prints the verdict line, as `capcheck judge` does. After a `no` it also prints to standard error the number of lines
 * that it had read, the faulty line, what the rules give if the line records another result, and each register that held
 * anything but untagged NULL before that line. Status: 0 for a `yes`, 1 for a `no`, 2 if there is no verdict.
 */
#include <capcheck_judge.h>

#include <stdio.h>
#include <string.h>

/* Space for the longest line with its line feed and a NUL. A longer line comes in parts, and the first part is faulty. */
enum { ROOM = CAPCHECK_LINE_SIZE + 1 };

/* Shows the registers of the log's machine that hold anything but untagged NULL. */
static void show_registers(capcheck_judge *judge) {
    capcheck_word null = capcheck_null();
    for (unsigned number = 1; number < 32; number++) {
        capcheck_cap held = capcheck_judge_register(judge, number).cap;
        if (held.tag != 0 || held.word.high != null.high || held.word.low != null.low)
            fprintf(stderr, "c%u held %u %016llx%016llx\n", number, (unsigned)held.tag,
                    (unsigned long long)held.word.high, (unsigned long long)held.word.low);
    }
}

/* Shows what the rules give for a step that records another result, as `capdiag why` prints it. */
static void show_expected(capcheck_judge *judge) {
    capcheck_expected given = capcheck_judge_expected(judge);
    if (given.kind == CAPCHECK_EXPECTS_CAPABILITY)
        fprintf(stderr, "gives %u %016llx%016llx\n", (unsigned)given.cap.tag,
                (unsigned long long)given.cap.word.high, (unsigned long long)given.cap.word.low);
    else if (given.kind == CAPCHECK_EXPECTS_NUMBER)
        fprintf(stderr, "gives %0*llx\n", 2 * given.size, (unsigned long long)given.number);
}

static int stop(capcheck_judge *judge, const char *line, unsigned long long count) {
    capcheck_answer answer = capcheck_judge_answer(judge);
    printf("no %llu %u %s\n", (unsigned long long)answer.line, (unsigned)answer.refusal,
           capcheck_refusal_text(answer.refusal));
    fprintf(stderr, "stopped after %llu lines: %s", count, line);
    show_expected(judge);
    show_registers(judge);
    return 1;
}

static int finish(capcheck_judge *judge) {
    capcheck_answer answer = capcheck_judge_end(judge);
    if (answer.state == CAPCHECK_YES) {
        printf("yes %lu %lu\n", (unsigned long)answer.steps, (unsigned long)answer.roots);
        return 0;
    }
    printf("no %llu %u %s\n", (unsigned long long)answer.line, (unsigned)answer.refusal,
           capcheck_refusal_text(answer.refusal));
    return 1;
}

/* Passes the lines to the judge. Returns the exit status. */
static int judge_lines(capcheck_judge *judge) {
    char line[ROOM];
    unsigned long long count = 0;
    while (fgets(line, sizeof line, stdin) != NULL) {
        uint8_t state = capcheck_judge_line(judge, line, strlen(line));
        count++;
        if (state == CAPCHECK_NO)
            return stop(judge, line, count);
        if (state != CAPCHECK_GOES_ON) {
            fprintf(stderr, "stopping: no verdict at line %llu: %u\n", count, (unsigned)state);
            return 2;
        }
    }
    return finish(judge);
}

int main(void) {
    capcheck_judge judge = CAPCHECK_NO_JUDGE_YET;
    if (capcheck_judge_open(&judge) != CAPCHECK_GOES_ON) {
        fprintf(stderr, "stopping: no memory\n");
        return 2;
    }
    int status = judge_lines(&judge);
    capcheck_judge_close(&judge);
    return status;
}
