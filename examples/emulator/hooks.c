/*
 * Tries each call of capcheck_recorder.h: which lines it writes for what the emulator says, when it fails and what it says
 * then, and what happens if the judge refuses a line or runs out of memory. It prints the run log that it recorded, which
 * `capdiag run` accepts. Status: 0 if all is as expected. It is C and C++.
 */
#include <capcheck_recorder.h>

#include <stdio.h>
#include <stdlib.h>
#include <string.h>

static int failures;
static char written[8 * CAPCHECK_LINE_SIZE]; /* the lines of the last call */
static size_t filled;
static bool shows = true; /* whether lines are printed */
static capcheck_recorder recorder;

static bool keep(void *to, const char *line, size_t length) {
    if (length > sizeof written - filled)
        return false;
    memcpy(written + filled, line, length);
    filled += length;
    return !shows || capcheck_recorder_to_file(to, line, length);
}

static void expect(bool holds, int line) {
    if (!holds) {
        fprintf(stderr, "hooks.c:%d: not as expected: %s\n", line, recorder.error);
        failures++;
    }
}

#define EXPECT(holds) expect((holds), __LINE__)

/* Whether a call goes on, and the first words of the lines that it writes. */
static void expect_lines(bool goes_on, const char *kinds, int line) {
    char said[sizeof written];
    size_t i, at = 0;
    bool first = true;
    while (!goes_on && recorder.state == CAPCHECK_NO_MEMORY)
        goes_on = capcheck_recorder_again(&recorder);
    for (i = 0; i < filled; i++) {
        if (first && written[i] == ' ')
            first = false;
        else if (first)
            said[at++] = written[i];
        else if (written[i] == '\n') {
            said[at++] = ' ';
            first = true;
        }
    }
    if (!goes_on || at != strlen(kinds) + (filled != 0) || memcmp(said, kinds, strlen(kinds)) != 0) {
        fprintf(stderr, "hooks.c:%d: %s%.*s", line, recorder.error, (int)filled, written);
        failures++;
    }
    filled = 0;
}

#define WRITES(call, lines) expect_lines((call), (lines), __LINE__)

static capcheck_cap untagged(capcheck_cap cap) {
    cap.tag = 0;
    return cap;
}

/* A capability with another type, such as a sentry's. */
static capcheck_cap typed(capcheck_cap cap, uint32_t type) {
    capcheck_fields fields = capcheck_split(cap.word);
    fields.otype = type;
    cap.word = capcheck_join(fields).word;
    return cap;
}

static capcheck_cap masked(capcheck_cap cap, uint64_t mask) { return capcheck_and_perm(cap, mask).cap; }
static capcheck_cap moved(capcheck_cap cap, uint64_t address) { return capcheck_set_addr(cap, address).cap; }
static capcheck_cap bounded(capcheck_cap cap, uint64_t length) { return capcheck_set_bounds(cap, length, 0).cap; }

static bool did(uint8_t kind, uint64_t target, uint64_t source, uint64_t other, uint64_t number, capcheck_cap value) {
    return capcheck_recorder_did(&recorder, kind, target, source, other, number, value);
}

static bool wrote(uint64_t target, uint64_t source, capcheck_cap value) {
    return capcheck_recorder_wrote(&recorder, capcheck_c(target), capcheck_c(source), value);
}

/* The eight steps that only write a register: each has its own line. */
static void steps(capcheck_cap all) {
    capcheck_cap region = moved(all, 0x10000), small = bounded(region, 4097), type = moved(all, 0x20);
    WRITES(did(CAPCHECK_KIND_MOVE, 2, 1, 0, 0, all), "move");
    WRITES(did(CAPCHECK_KIND_CLEARTAG, 2, 2, 99, 5, untagged(all)), "cleartag"); /* what a kind doesn't have is ignored */
    WRITES(did(CAPCHECK_KIND_SETADDR, 2, 1, 0, 0x10000, region), "setaddr");
    WRITES(did(CAPCHECK_KIND_SETBOUNDS, 3, 2, 0, 4097, small), "setbounds");
    WRITES(did(CAPCHECK_KIND_SETBOUNDSEXACT, 3, 2, 0, 4096, bounded(region, 4096)), "setboundsexact");
    WRITES(did(CAPCHECK_KIND_ANDPERM, 4, 3, 0, 0x7fff, masked(bounded(region, 4096), 0x7fff)), "andperm");
    WRITES(did(CAPCHECK_KIND_SETBOUNDS, 3, 2, 0, 4097, small), "setbounds");
    WRITES(did(CAPCHECK_KIND_SETADDR, 5, 1, 0, 0x20, type), "setaddr");
    WRITES(did(CAPCHECK_KIND_SEAL, 6, 3, 5, 0, capcheck_seal(small, type).cap), "seal");
    WRITES(did(CAPCHECK_KIND_UNSEAL, 7, 6, 5, 0, small), "unseal");
    WRITES(did(CAPCHECK_KIND_MOVE, 0, 6, 5, 0, small), "");
}

/* What has no step: a CBuildCap, a CSetFlags, a sentry, an untagged word. */
static void derivations(capcheck_cap all) {
    capcheck_cap region = bounded(moved(all, 0x10000), 4096), built = masked(bounded(moved(region, 0x10010), 16), 0xc), flagged = region;
    capcheck_fields fields = capcheck_split(region.word);
    fields.flag = 1;
    flagged.word = capcheck_join(fields).word;
    WRITES(wrote(8, 1, region), "derive");
    WRITES(wrote(9, 8, built), "derive");
    WRITES(wrote(9, 8, flagged), "derive");
    WRITES(wrote(9, 8, typed(region, CAPCHECK_OTYPE_SENTRY)), "derive");
    WRITES(wrote(9, 8, untagged(flagged)), "derive");
    WRITES(wrote(9, 0, untagged(flagged)), "derive");
    WRITES(wrote(9, 8, region), "derive");
    WRITES(wrote(0, 8, region), "");
}

/* An integer that overwrites a register takes its tag, and is told where it is read. */
static void integers(capcheck_cap all) {
    capcheck_cap number = CAPCHECK_NULL, other = CAPCHECK_NULL;
    char line[CAPCHECK_LINE_SIZE];
    number.word.low = 0x77;
    other.word.low = 0x88;
    WRITES(capcheck_recorder_overwrote(&recorder, 9, 0x66), "drop");
    WRITES(capcheck_recorder_overwrote(&recorder, 9, 0x77), "");
    WRITES(did(CAPCHECK_KIND_MOVE, 10, 9, 0, 0, number), "derive move");
    WRITES(capcheck_recorder_overwrote(&recorder, 9, 0x77), "");
    WRITES(did(CAPCHECK_KIND_MOVE, 10, 9, 0, 0, number), "move");
    WRITES(capcheck_recorder_overwrote(&recorder, 9, 0x88), "");
    WRITES(did(CAPCHECK_KIND_MOVE, 9, 1, 0, 0, all), "move");
    WRITES(capcheck_recorder_overwrote(&recorder, 9, 0x88), "drop");
    WRITES(capcheck_recorder_line(&recorder, line, capcheck_line_move(line, 10, 9, other)), "derive move");
    WRITES(capcheck_recorder_overwrote(&recorder, 9, 0x77), "");
    WRITES(capcheck_recorder_overwrote(&recorder, 10, 0x77), "");
    WRITES(capcheck_recorder_line(&recorder, line, capcheck_line_exchange(line, 10, 9, 20, number, number)), "derive exchange");
    WRITES(wrote(10, 1, all), "derive");
    WRITES(capcheck_recorder_overwrote(&recorder, 0, 0x77), "");
}

/* Calls and traps: PCC is scr0, the trap vector scr28, and EPCC scr31. */
static void calls(capcheck_cap all) {
    capcheck_cap code = bounded(moved(all, 0x4000), 0x1000), link = typed(moved(code, 0x4010), CAPCHECK_OTYPE_SENTRY);
    capcheck_cap type = moved(all, 0x20), half = masked(moved(code, 0x4100), 0x7ffff), other = masked(half, 0x7fffd);
    char line[CAPCHECK_LINE_SIZE];
    WRITES(capcheck_recorder_wrote(&recorder, capcheck_scr(0), capcheck_scr(0), code), "derive");
    WRITES(wrote(11, 1, moved(code, 0x4100)), "derive");
    WRITES(capcheck_recorder_exchanged(&recorder, 12, capcheck_c(11), 0, link, moved(code, 0x4100)), "exchange");
    WRITES(capcheck_recorder_exchanged(&recorder, 0, capcheck_c(12), 0, all, moved(code, 0x4010)), "derive");
    WRITES(capcheck_recorder_exchanged(&recorder, 13, capcheck_nowhere(), 1, all, all), "derive");
    WRITES(capcheck_recorder_wrote(&recorder, capcheck_scr(28), capcheck_c(11), code), "derive");
    WRITES(capcheck_recorder_trapped(&recorder, capcheck_scr(31), moved(code, 0x4014), 28, code), "derive derive");
    WRITES(capcheck_recorder_trapped(&recorder, capcheck_nowhere(), all, 31, moved(code, 0x4018)), "derive");
    WRITES(did(CAPCHECK_KIND_MOVE, 14, 11, 0, 0, half), "move");
    WRITES(did(CAPCHECK_KIND_ANDPERM, 15, 14, 0, 0x7fffd, other), "andperm");
    WRITES(did(CAPCHECK_KIND_SEAL, 14, 14, 5, 0, capcheck_seal(half, type).cap), "seal");
    WRITES(did(CAPCHECK_KIND_SEAL, 15, 15, 5, 0, capcheck_seal(other, type).cap), "seal");
    WRITES(capcheck_recorder_invoked(&recorder, 14, 15, half.word, other.word), "invoke");
    WRITES(capcheck_recorder_line(&recorder, line, capcheck_line_invoke(line, 14, 15, half.word, other.word)), "invoke");
    WRITES(capcheck_recorder_overwrote(&recorder, 31, 0), "drop"); /* a line of one's own is noted too */
}

/* Memory: also through a special register, through a far offset, and from outside. The spare register is dropped each time. */
static void memory(capcheck_cap all) {
    static const uint8_t bytes[16] = {1, 2, 3};
    capcheck_cap word = CAPCHECK_NULL;
    word.word = capcheck_from_memory(bytes);
    WRITES(capcheck_recorder_stored_cap(&recorder, 1, capcheck_c(8), 32), "sc");
    WRITES(capcheck_recorder_loaded_cap(&recorder, 16, capcheck_c(8), 32, all), "lc");
    WRITES(capcheck_recorder_loaded_cap(&recorder, 0, capcheck_c(8), 32, all), "load load");
    WRITES(capcheck_recorder_stored(&recorder, capcheck_c(8), 8, 4, 0x12345678), "store");
    WRITES(capcheck_recorder_loaded(&recorder, capcheck_c(8), 8, 1, 0x78), "load");
    WRITES(capcheck_recorder_wrote(&recorder, capcheck_scr(1), capcheck_c(1), all), "derive");
    recorder.spare = 30;
    WRITES(capcheck_recorder_loaded(&recorder, capcheck_scr(1), 0x10008, 4, 0x12345678), "derive load drop");
    WRITES(capcheck_recorder_stored(&recorder, capcheck_c(1), 4096, 8, 7), "derive store drop");
    WRITES(capcheck_recorder_stored_cap(&recorder, 1, capcheck_scr(1), 0x3000), "derive sc drop");
    WRITES(capcheck_recorder_loaded_cap(&recorder, 0, capcheck_scr(1), 0x3000, all), "derive load drop derive load drop");
    WRITES(capcheck_recorder_filled(&recorder, 0x1010, bytes), "fill");
    WRITES(capcheck_recorder_loaded_cap(&recorder, 16, capcheck_c(1), 4112, word), "derive lc drop");
    WRITES(capcheck_recorder_dropped(&recorder, capcheck_granule(0x10020)), "drop");
    WRITES(capcheck_recorder_dropped(&recorder, capcheck_scr(1)), "drop");
}

static void objects(capcheck_cap all) {
    capcheck_cap object = bounded(moved(all, 0x20000), 64), grown = bounded(moved(all, 0x20000), 128);
    WRITES(wrote(17, 1, object), "derive");
    WRITES(capcheck_recorder_object(&recorder, 17, 0), "object");
    WRITES(wrote(18, 1, grown), "derive");
    WRITES(capcheck_recorder_object(&recorder, 18, 1), "object");
    WRITES(capcheck_recorder_freed(&recorder, 17, 0), "free");
    WRITES(wrote(19, 1, bounded(moved(all, 0x30000), 64)), "derive");
    WRITES(capcheck_recorder_object(&recorder, 19, 0), "object");
    WRITES(capcheck_recorder_freed(&recorder, 0, 2), "free");
}

static capcheck_recorder_registers two; /* of hart 2 */

static void root_of_two(capcheck_cap all) {
    memset(&two, 0, sizeof two);
    WRITES(capcheck_recorder_hart(&recorder, 2, &two), "hart");
    WRITES(capcheck_recorder_root(&recorder, capcheck_c(1), all.word), "root");
    WRITES(capcheck_recorder_hart(&recorder, 0, NULL), "hart");
}

static void harts(capcheck_cap all) {
    capcheck_cap seven = CAPCHECK_NULL;
    seven.word.low = 7;
    WRITES(capcheck_recorder_hart(&recorder, 2, &two), "hart");
    WRITES(capcheck_recorder_hart(&recorder, 2, &two), "");
    WRITES(wrote(2, 1, bounded(moved(all, 0x40000), 64)), "derive");
    WRITES(capcheck_recorder_overwrote(&recorder, 3, 7), "");
    WRITES(capcheck_recorder_hart(&recorder, 0, NULL), "hart");
    WRITES(did(CAPCHECK_KIND_MOVE, 3, 1, 0, 0, all), "move");
    WRITES(capcheck_recorder_hart(&recorder, 2, &two), "hart");
    WRITES(did(CAPCHECK_KIND_MOVE, 4, 3, 0, 0, seven), "derive move");
    WRITES(capcheck_recorder_thread_ended(&recorder), "drop drop");
    WRITES(capcheck_recorder_thread_ended(&recorder), "");
}

static void begin(capcheck_run_judge *judge, capcheck_cap all) {
    filled = 0;
    WRITES(capcheck_recorder_start(&recorder, judge, keep, stdout, 0), "run mode");
    WRITES(capcheck_recorder_root(&recorder, capcheck_c(1), all.word), "root");
    WRITES(capcheck_recorder_root(&recorder, capcheck_scr(0), all.word), "root");
    WRITES(capcheck_recorder_root(&recorder, capcheck_scr(1), all.word), "root");
    WRITES(capcheck_recorder_root(&recorder, capcheck_granule(0x2000), all.word), "root");
}

static void program(capcheck_run_judge *judge, capcheck_cap all) {
    begin(judge, all);
    root_of_two(all);
    steps(all);
    derivations(all);
    integers(all);
    calls(all);
    memory(all);
    objects(all);
    harts(all);
    WRITES(capcheck_recorder_end(&recorder), "end");
}

/* ---- Calls that fail ---- */

/* A call on a new recording fails, says why, and writes nothing; so do later calls. */
static void expect_error(bool goes_on, const char *error, capcheck_cap all, int line) {
    expect(!goes_on && filled == 0 && recorder.state == CAPCHECK_NO_LINE && strcmp(recorder.error, error) == 0, line);
    expect(!did(CAPCHECK_KIND_MOVE, 2, 1, 0, 0, all) && !capcheck_recorder_end(&recorder) && filled == 0, line);
    expect(!capcheck_recorder_again(&recorder) && strcmp(recorder.error, error) == 0, line);
    begin(NULL, all);
    recorder.spare = 30;
}

#define FAILS(call, error) expect_error((call), (error), all, __LINE__)

static void out_of_range(capcheck_cap all) {
    static const uint8_t bytes[16] = {0};
    char line[CAPCHECK_LINE_SIZE];
    shows = false;
    begin(NULL, all);
    recorder.spare = 30;
    FAILS(capcheck_recorder_hart(&recorder, 65536, &two), "the hart is 65536: the harts are 0 to 65535");
    FAILS(capcheck_recorder_hart(&recorder, 2, NULL), "hart 2 has no memory for its registers");
    FAILS(did(CAPCHECK_KIND_MOVE, 40, 1, 0, 0, all), "the target is c40: the registers are c0 to c31");
    FAILS(did(CAPCHECK_KIND_MOVE, 0, 40, 0, 0, all), "the source is c40: the registers are c0 to c31");
    FAILS(did(CAPCHECK_KIND_SEAL, 2, 1, 32, 0, all), "the authority is c32: the registers are c0 to c31");
    FAILS(did(CAPCHECK_KIND_LC, 2, 1, 0, 0, all), "kind 13 is no step that only writes a register");
    FAILS(did(CAPCHECK_KIND_MOVE, 30, 1, 0, 0, all), "the target is c30, which is the spare register");
    FAILS(wrote(40, 1, all), "the target is c40: the registers are c0 to c31");
    FAILS(wrote(2, 40, all), "the source is c40: the registers are c0 to c31");
    FAILS(capcheck_recorder_wrote(&recorder, capcheck_scr(32), capcheck_c(1), all), "the target is scr32: the special registers are scr0 to scr31");
    FAILS(capcheck_recorder_wrote(&recorder, capcheck_c(2), capcheck_nowhere(), all), "the source is neither a register nor a special register");
    FAILS(capcheck_recorder_overwrote(&recorder, 40, 5), "the target is c40: the registers are c0 to c31");
    FAILS(capcheck_recorder_exchanged(&recorder, 0, capcheck_c(1), 40, all, all), "the special register is scr40: the special registers are scr0 to scr31");
    FAILS(capcheck_recorder_exchanged(&recorder, 3, capcheck_scr(5), 0, all, all),
          "the source is no register: a special register gets what comes from one");
    FAILS(capcheck_recorder_invoked(&recorder, 1, 32, all.word, all.word), "the datum is c32: the registers are c0 to c31");
    FAILS(capcheck_recorder_trapped(&recorder, capcheck_c(3), all, 28, all), "the saved register is no special register");
    FAILS(capcheck_recorder_trapped(&recorder, capcheck_scr(31), all, 64, all), "the vector is scr64: the special registers are scr0 to scr31");
    FAILS(capcheck_recorder_dropped(&recorder, capcheck_c(0)), "the place is c0: the registers are c1 to c31");
    FAILS(capcheck_recorder_dropped(&recorder, capcheck_granule(8)), "the granule's address 8 isn't a multiple of 16");
    FAILS(capcheck_recorder_dropped(&recorder, capcheck_nowhere()), "the place is no register, special register or granule");
    FAILS(capcheck_recorder_root(&recorder, capcheck_nowhere(), all.word), "the place is no register, special register or granule");
    FAILS(capcheck_recorder_root(&recorder, capcheck_scr(32), all.word), "the place is scr32: the special registers are scr0 to scr31");
    FAILS(capcheck_recorder_root(&recorder, capcheck_c(0), all.word), "the place is c0: the registers are c1 to c31");
    FAILS(did(CAPCHECK_KIND_MOVE, 2, 1, 0, 0, all) && (filled = 0, capcheck_recorder_root(&recorder, capcheck_c(3), all.word)),
          "a root comes before the first step");
    FAILS(capcheck_recorder_loaded(&recorder, capcheck_c(1), 0, 3, 0), "the access has 3 bytes: data have 1, 2, 4 or 8");
    FAILS(capcheck_recorder_stored(&recorder, capcheck_c(1), 0, 2, 0x10000), "the value 10000 has more than 2 bytes");
    FAILS(capcheck_recorder_loaded(&recorder, capcheck_granule(16), 0, 8, 0), "the authority is neither a register nor a special register");
    FAILS(capcheck_recorder_filled(&recorder, 0x1008, bytes), "the granule's address 1008 isn't a multiple of 16");
    FAILS(capcheck_recorder_object(&recorder, 0, 0), "the source is c0: the registers are c1 to c31");
    FAILS(capcheck_recorder_object(&recorder, 1, UINT64_C(1) << 32), "the object is 4294967296: their numbers are below 2^32");
    FAILS(capcheck_recorder_freed(&recorder, 2, 1), "free names both c2 and object 1");
    FAILS(capcheck_recorder_line(&recorder, "move c2 c1\n", 11), "the text isn't one line of a run log");
    FAILS(capcheck_recorder_line(&recorder, line, capcheck_line_end(line, 0)), "the line is no step");
    FAILS(capcheck_recorder_again(&recorder), "no line has to be passed again");
    FAILS((recorder.spare = 0, capcheck_recorder_loaded(&recorder, capcheck_scr(1), 0, 4, 0)), "the access needs a spare register");
    FAILS((recorder.spare = 40, capcheck_recorder_loaded(&recorder, capcheck_c(1), 5000, 8, 0)),
          "the spare register is c40: the registers are c1 to c31");
    FAILS(capcheck_recorder_end(&recorder) && (filled = 0, capcheck_recorder_overwrote(&recorder, 2, 0)), "the log has ended");
    FAILS(capcheck_recorder_start(&recorder, NULL, NULL, NULL, 0), "nothing takes the lines: there is no judge and no function");
    memset(&recorder, 0, sizeof recorder);
    FAILS(capcheck_recorder_end(&recorder), "the recording hasn't begun");
}

/* ---- A judge ---- */

static bool full(void *to, const char *line, size_t length) {
    (void)to;
    (void)line;
    return length < 10;
}

/* After a `no`, the error is the verdict, and the file has the line that was refused. */
static void refusals(capcheck_cap all) {
    const capcheck_asks asks = CAPCHECK_ASKS_HELD;
    capcheck_run_judge judge = CAPCHECK_NO_RUN_JUDGE_YET;
    EXPECT(!capcheck_recorder_start(&recorder, &judge, NULL, NULL, 0) && recorder.state == CAPCHECK_NO_JUDGE);
    EXPECT(strcmp(recorder.error, "the judge takes no line: NoJudge") == 0);
    EXPECT(capcheck_run_judge_open(&judge, asks) == CAPCHECK_GOES_ON);
    begin(&judge, all);
    WRITES(wrote(2, 1, bounded(all, 16)), "derive");
    EXPECT(!wrote(3, 2, bounded(all, 32)) && recorder.state == CAPCHECK_NO && recorder.lines == 8);
    EXPECT(strcmp(recorder.error, "no 8 31 BeyondSource") == 0 && filled != 0 && strncmp(written, "derive c3 c2 = 1 ", 17) == 0);
    filled = 0;
    EXPECT(!wrote(3, 2, all) && filled == 0 && strcmp(recorder.error, "no 8 31 BeyondSource") == 0);
    EXPECT(!capcheck_recorder_start(&recorder, NULL, full, NULL, 0) && strcmp(recorder.error, "line 2 can't be written") == 0);
    capcheck_run_judge_close(&judge);
}

static unsigned long allocations, failing; /* the allocation that fails */

static void *take(size_t size) { return ++allocations == failing ? NULL : malloc(size); }
static void *again(void *block, size_t size) { return ++allocations == failing ? NULL : realloc(block, size); }
static void give(void *block) { free(block); }

/* Whichever allocation fails, the line is passed again, and the log has the same lines. */
static void memory_that_fails(capcheck_cap all) {
    const capcheck_asks asks = CAPCHECK_ASKS_HELD;
    unsigned long most = 1, passed_again = 0;
    capcheck_judge_memory(take, again, give);
    for (failing = 0; failing <= most; failing++) {
        capcheck_run_judge judge = CAPCHECK_NO_RUN_JUDGE_YET;
        allocations = 0;
        while (capcheck_run_judge_open(&judge, asks) == CAPCHECK_NO_MEMORY)
            passed_again++;
        program(&judge, all);
        EXPECT(capcheck_run_judge_end(&judge).state == CAPCHECK_YES);
        capcheck_run_judge_close(&judge);
        most = allocations;
    }
    capcheck_judge_memory(malloc, realloc, free);
    EXPECT(most > 2 && passed_again < most);
}

int main(void) {
    capcheck_cap all;
    all.word.high = 0xffff1ffffc018004;
    all.word.low = 0;
    all.tag = 1;
    program(NULL, all);
    out_of_range(all);
    refusals(all);
    memory_that_fails(all);
    return failures != 0 || fflush(stdout) != 0;
}
