/*
 * Refuses memory to a judge of run logs: each allocation in turn, alone, and with all later ones until the judge reports it.
 * The judge gets a log line by line, by steps without lines, by many lines at once, in one call, and by the recorder. What
 * was refused is passed again: the judge then has to answer as one that was refused nothing, of each place and each object,
 * and to hold no memory once it is closed. No question may need memory. Status: 0 if all is as expected. It is C and C++.
 */
#include <capcheck_recorder.h>

#include <stdio.h>
#include <stdlib.h>
#include <string.h>

static int failures;

static void expect(bool holds, int line) {
    if (!holds) {
        fprintf(stderr, "run_memory.c:%d: not as expected\n", line);
        failures++;
    }
}

#define EXPECT(holds) expect((holds), __LINE__)

static const capcheck_asks usual = CAPCHECK_ASKS_HELD;

/* The number of blocks that the judges hold; whether they get more; how many allocations succeed before one fails, or -1 if
 * none is to fail so; whether all later ones fail too; and how many were requested. */
static long held;
static bool has_memory = true;
static long until_refused = -1;
static bool fails_on;
static long requests;

static bool allocates(void) {
    requests++;
    if (until_refused >= 0 && until_refused-- == 0) {
        has_memory = !fails_on;
        return false;
    }
    return has_memory;
}

#ifdef __cplusplus
extern "C" {
#endif
static void *take(size_t size) {
    void *block = allocates() ? malloc(size) : NULL;
    held += block != NULL;
    return block;
}

static void *again(void *old, size_t size) {
    void *block = allocates() ? realloc(old, size) : NULL;
    held += old == NULL && block != NULL;
    return block;
}

static void give(void *block) {
    held -= block != NULL;
    free(block);
}
#ifdef __cplusplus
}
#endif

/* ---- The log ---- */

enum { OBJECTS = 16, MOST = 1 << 16, AREA = 0x100000, PAGES = 0x200000 };

static char log_text[MOST];
static size_t log_length;

static bool keep(void *to, const char *line, size_t length) {
    (void)to;
    if (length > sizeof log_text - log_length)
        return false;
    memcpy(log_text + log_length, line, length);
    log_length += length;
    return true;
}

/* How often a call of the recorder reported that memory ran out. */
static long reported;

/* What a call of the recorder does in the end: if memory ran out, its lines are passed again. */
static void done(capcheck_recorder *r, bool goes_on) {
    while (!goes_on && r->state == CAPCHECK_NO_MEMORY) {
        reported++;
        has_memory = true;
        goes_on = capcheck_recorder_again(r);
    }
    EXPECT(goes_on);
}

/* c2 gets what is `size` bytes from an address on, out of the root. */
static void narrow(capcheck_recorder *r, uint64_t target, capcheck_cap root, uint64_t address, uint64_t size) {
    capcheck_cap moved = capcheck_set_addr(root, address).cap, small = capcheck_set_bounds(moved, size, 1).cap;
    done(r, capcheck_recorder_did(r, CAPCHECK_KIND_SETADDR, target, 1, 0, address, moved));
    done(r, capcheck_recorder_did(r, CAPCHECK_KIND_SETBOUNDSEXACT, target, target, 0, size, small));
}

/* Objects are handed out, each with a copy in a page of its own; of each four one grows in place, one is freed and stays held, and
 * one is freed and revoked. The last ones get the memory of those that were revoked. */
static void record(capcheck_run_judge *judge, capcheck_recorder_write write) {
    static const uint8_t bytes[16] = {1, 2, 3};
    const capcheck_cap null = CAPCHECK_NULL;
    capcheck_word all = capcheck_root(0, capcheck_length(null.word), CAPCHECK_ALL_PERMISSIONS).word;
    capcheck_cap root, page;
    capcheck_recorder r;
    uint64_t number;
    root.word = all;
    root.tag = 1;
    done(&r, capcheck_recorder_start(&r, judge, write, NULL, 0));
    done(&r, capcheck_recorder_root(&r, capcheck_c(1), all));
    done(&r, capcheck_recorder_root(&r, capcheck_scr(0), all));
    done(&r, capcheck_recorder_root(&r, capcheck_granule(0x20), all));
    for (number = 1; number <= OBJECTS; number++) {
        uint64_t at = number <= OBJECTS / 2 ? number : 4 * (number - OBJECTS / 2);
        if (at > OBJECTS / 2)
            at = number;
        narrow(&r, 2, root, AREA + 0x100 * at, 0x40);
        done(&r, capcheck_recorder_object(&r, 2, 0));
        page = capcheck_set_addr(root, PAGES + 0x10000 * number).cap;
        done(&r, capcheck_recorder_did(&r, CAPCHECK_KIND_SETADDR, 3, 1, 0, page.word.low, page));
        done(&r, capcheck_recorder_stored_cap(&r, 2, capcheck_c(3), 0));
        done(&r, capcheck_recorder_stored(&r, capcheck_c(3), 16, 8, number));
        if (number % 4 == 1) {
            narrow(&r, 4, root, AREA + 0x100 * at + 0x20, 0x40);
            done(&r, capcheck_recorder_object(&r, 4, number));
        } else if (number % 4 != 2) {
            done(&r, capcheck_recorder_freed(&r, number % 8 < 4 ? 2 : 0, number % 8 < 4 ? 0 : number));
        }
        if (number % 4 == 0) {
            done(&r, capcheck_recorder_dropped(&r, capcheck_c(2)));
            done(&r, capcheck_recorder_dropped(&r, capcheck_granule(page.word.low)));
        }
        done(&r, capcheck_recorder_filled(&r, PAGES + 0x10000 * number + 0x100, bytes));
    }
    done(&r, capcheck_recorder_exchanged(&r, 5, capcheck_c(1), 0, root, root));
    done(&r, capcheck_recorder_end(&r));
}

/* ---- What a judge answers ---- */

static bool same(capcheck_run_answer a, capcheck_run_answer b) {
    return a.line == b.line && a.steps == b.steps && a.roots == b.roots && a.objects == b.objects && a.state == b.state &&
           a.refusal == b.refusal;
}

static bool same_cap(capcheck_optional_cap a, capcheck_optional_cap b) {
    return a.present == b.present && a.cap.tag == b.cap.tag && a.cap.word.high == b.cap.word.high && a.cap.word.low == b.cap.word.low;
}

static bool same_place(const capcheck_run_judge *a, const capcheck_run_judge *b, capcheck_place place) {
    return same_cap(capcheck_run_judge_held(a, place), capcheck_run_judge_held(b, place)) &&
           capcheck_run_judge_owner(a, place) == capcheck_run_judge_owner(b, place);
}

static bool same_object(const capcheck_run_judge *a, const capcheck_run_judge *b, uint32_t number) {
    capcheck_object x = capcheck_run_judge_object(a, number), y = capcheck_run_judge_object(b, number);
    capcheck_place first = capcheck_run_judge_holder(a, number), second = capcheck_run_judge_holder(b, number);
    return x.base == y.base && x.top.high == y.top.high && x.top.low == y.top.low && x.held == y.held && x.line == y.line &&
           x.state == y.state && first.kind == second.kind && first.number == second.number &&
           capcheck_run_judge_next_object(a, number) == capcheck_run_judge_next_object(b, number);
}

/* Whether two judges answer the same of all that the log names. They are asked while no memory is to be had, and ask for none. */
static bool alike(const capcheck_run_judge *a, const capcheck_run_judge *b) {
    static char text[2][CAPCHECK_REPORT_SIZE];
    bool before = has_memory, is = true;
    long requested = requests;
    uint64_t number, length;
    has_memory = false;
    for (number = 0; number < 32; number++)
        is = is && same_place(a, b, capcheck_c(number)) && same_place(a, b, capcheck_scr(number));
    for (number = 1; number <= OBJECTS; number++)
        is = is && same_object(a, b, (uint32_t)number) && same_place(a, b, capcheck_granule(PAGES + 0x10000 * number)) &&
             same_place(a, b, capcheck_granule(PAGES + 0x10000 * number + 0x100));
    is = is && same(capcheck_run_judge_answer(a), capcheck_run_judge_answer(b)) && same(capcheck_run_judge_end(a), capcheck_run_judge_end(b));
    is = is && capcheck_run_judge_expected(a).kind == capcheck_run_judge_expected(b).kind;
    is = is && capcheck_run_judge_report(a, text[0], sizeof text[0]) == capcheck_run_judge_report(b, text[1], sizeof text[1]);
    length = capcheck_run_judge_end_report(a, text[0], sizeof text[0]);
    is = is && length == capcheck_run_judge_end_report(b, text[1], sizeof text[1]) && memcmp(text[0], text[1], (size_t)length) == 0;
    has_memory = before;
    return is && requests == requested;
}

/* ---- The ways in which it gets the log ---- */

static uint8_t by_line(capcheck_run_judge *judge, const char *line, size_t length) { return capcheck_run_judge_line(judge, line, length); }

static uint8_t by_step(capcheck_run_judge *judge, const char *line, size_t length) {
    capcheck_run_line is = capcheck_read_run_line(line, length);
    uint8_t state = capcheck_run_step(judge, &is);
    return state == CAPCHECK_NO_LINE ? capcheck_run_judge_line(judge, line, length) : state;
}

static uint8_t by_lines(capcheck_run_judge *judge, const char *line, size_t length) {
    capcheck_taken taken = capcheck_run_judge_lines(judge, line, length);
    EXPECT(taken.bytes == (taken.state == CAPCHECK_GOES_ON ? length : 0));
    return taken.state;
}

typedef uint8_t (*way)(capcheck_run_judge *judge, const char *line, size_t length);

/* Passes a line without any refusal to another judge, which then is as the first has to be. */
static void follow(capcheck_run_judge *judge, const char *line, size_t length) {
    long before = until_refused;
    until_refused = -1;
    EXPECT(capcheck_run_judge_line(judge, line, length) == CAPCHECK_GOES_ON);
    until_refused = before;
}

/* Whether a line names a granule, or an object that is handed out. */
static bool may_want(const char *line, size_t length) {
    return memchr(line, '@', length) != NULL || memcmp(line, "object", 6) == 0 || memcmp(line, "sc ", 3) == 0 || memcmp(line, "store ", 6) == 0;
}

/* Line after line: at a line for which memory ran out nothing has changed, and it is taken when it is passed again. Returns how
 * often that was reported. */
static long line_after_line(way pass, capcheck_run_judge *judge, capcheck_run_judge *other) {
    size_t at = 0;
    long count = 0;
    while (at < log_length) {
        const char *line = log_text + at;
        size_t length = (size_t)((const char *)memchr(line, '\n', log_length - at) - line) + 1;
        uint8_t state = pass(judge, line, length);
        if (state == CAPCHECK_NO_MEMORY) {
            EXPECT(may_want(line, length) && alike(judge, other));
            has_memory = true;
            count++;
            state = pass(judge, line, length);
        }
        EXPECT(state == CAPCHECK_GOES_ON);
        follow(other, line, length);
        at += length;
    }
    EXPECT(alike(judge, other));
    return count;
}

/* All lines at once: what was not taken is passed again. */
static long all_at_once(capcheck_run_judge *judge) {
    capcheck_taken taken = capcheck_run_judge_lines(judge, log_text, log_length);
    long count = 0;
    size_t first = 0;
    if (taken.state == CAPCHECK_NO_MEMORY) {
        first = (size_t)taken.bytes;
        EXPECT(may_want(log_text + first, log_length - first));
        has_memory = true;
        count++;
        taken = capcheck_run_judge_lines(judge, log_text + first, log_length - first);
    }
    EXPECT(taken.state == CAPCHECK_GOES_ON && first + taken.bytes == log_length);
    return count;
}

enum { LINES, STEPS, PIECES, AT_ONCE, RECORDED, IN_ONE_CALL, WAYS };

/* Refuses an allocation to a judge that gets the log in a way. Returns whether one was refused. */
static bool refused_at(int how, long turn, bool alone) {
    static const way ways[] = {by_line, by_step, by_lines};
    capcheck_run_judge judge = CAPCHECK_NO_RUN_JUDGE_YET, other = CAPCHECK_NO_RUN_JUDGE_YET;
    capcheck_run_answer verdict;
    long before = held, count = 0;
    bool is_refused;
    uint8_t state;
    EXPECT(capcheck_run_judge_open(&other, usual) == CAPCHECK_GOES_ON);
    until_refused = turn;
    fails_on = !alone;
    if (how == IN_ONE_CALL) {
        verdict = capcheck_run_judge_bytes((const uint8_t *)log_text, log_length, usual);
        is_refused = until_refused < 0;
        EXPECT(verdict.state == CAPCHECK_YES ? alone || !is_refused : verdict.state == CAPCHECK_NO_MEMORY && is_refused);
        EXPECT(verdict.line == 0 && verdict.refusal == 0 && verdict.objects == (verdict.state == CAPCHECK_YES ? OBJECTS : 0));
    } else {
        state = capcheck_run_judge_open(&judge, usual);
        if (state == CAPCHECK_NO_MEMORY) {
            EXPECT(capcheck_run_judge_answer(&judge).state == CAPCHECK_NO_JUDGE && capcheck_run_judge_line(&judge, "run 1\n", 6) == CAPCHECK_NO_JUDGE);
            has_memory = true;
            count++;
            state = capcheck_run_judge_open(&judge, usual);
        }
        EXPECT(state == CAPCHECK_GOES_ON);
        reported = 0;
        if (how == RECORDED)
            record(&judge, NULL);
        else
            count += how == AT_ONCE ? all_at_once(&judge) : line_after_line(ways[how], &judge, &other);
        count += reported;
        is_refused = until_refused < 0;
        EXPECT(is_refused ? alone || count > 0 : count == 0);
        verdict = capcheck_run_judge_end(&judge);
        EXPECT(verdict.state == CAPCHECK_YES && verdict.objects == OBJECTS && verdict.roots == 3);
    }
    until_refused = -1;
    has_memory = true;
    if (how >= AT_ONCE && how != IN_ONE_CALL) {
        EXPECT(capcheck_run_judge_lines(&other, log_text, log_length).bytes == log_length);
        EXPECT(alike(&judge, &other));
    }
    capcheck_run_judge_close(&judge);
    capcheck_run_judge_close(&other);
    EXPECT(held == before);
    return is_refused;
}

int main(void) {
    int how, alone;
    long turn;
    capcheck_judge_memory(take, again, give);
    record(NULL, keep);
    EXPECT(log_length > 0);
    for (how = 0; how < WAYS; how++)
        for (alone = 0; alone < 2; alone++) {
            for (turn = 0; turn < 10000 && refused_at(how, turn, alone != 0); turn++)
                ;
            EXPECT(0 < turn && turn < 10000);
        }
    EXPECT(held == 0);
    return failures == 0 ? 0 : 1;
}
