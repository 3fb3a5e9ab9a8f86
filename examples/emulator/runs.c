/*
 * Judges run logs by each call of capcheck_judge.h for them, and prints the line that `capdiag run` prints:
 *
 *     runs run [--freed held|used|both] [--owned] [--owners] LOG..
 *
 * A log is judged in memory by one call; piece by piece, cut at every 1, 7 and 4096 bytes; line by line; and by lines whose
 * steps are passed by their numbers: each way must get the same verdict. Of the owners of granules it prints those below
 * 0x20000 and that of the last granule. Without words, it tries what the calls answer of places, owners and objects. Status: 0 if each log got a verdict
 * and all ways agree. It is C and C++.
 */
#include <capcheck_judge.h>

#include <stdio.h>
#include <stdlib.h>
#include <string.h>

static int failures;

/* The blocks that the judge holds and their bytes, counted above the C library; and the number of allocations that succeed
 * before all fail, or -1 if none is to fail. Each block has its size before it. */
static long blocks, bytes;
static long until_refused = -1;

typedef union {
    size_t size;
    char room[16];
} head;

static void *resized(head *old, size_t size) {
    size_t before = old == NULL ? 0 : old->size;
    head *block;
    if (until_refused >= 0 && until_refused-- == 0) {
        until_refused = 0;
        return NULL;
    }
    block = (head *)realloc(old, sizeof(head) + size);
    if (block == NULL)
        return NULL;
    block->size = size;
    blocks += old == NULL;
    bytes += (long)size - (long)before;
    return block + 1;
}

#ifdef __cplusplus
extern "C" {
#endif
static void *take(size_t size) { return resized(NULL, size); }

static void *again(void *old, size_t size) { return resized(old == NULL ? NULL : (head *)old - 1, size); }

static void give(void *block) {
    head *old = block == NULL ? NULL : (head *)block - 1;
    blocks -= old != NULL;
    bytes -= old != NULL ? (long)old->size : 0;
    free(old);
}
#ifdef __cplusplus
}
#endif

static void expect(bool holds, int line) {
    if (!holds) {
        fprintf(stderr, "runs.c:%d: not as expected\n", line);
        failures++;
    }
}

#define EXPECT(holds) expect((holds), __LINE__)

static const capcheck_asks usual = CAPCHECK_ASKS_HELD;

static bool same(capcheck_run_answer a, capcheck_run_answer b) {
    return a.line == b.line && a.steps == b.steps && a.roots == b.roots && a.objects == b.objects && a.state == b.state &&
           a.refusal == b.refusal;
}

static capcheck_place at(uint8_t kind, uint64_t number) {
    capcheck_place made;
    made.kind = kind;
    made.number = number;
    return made;
}

static void print_owner(const capcheck_run_judge *judge, uint32_t hart, uint8_t kind, uint64_t number) {
    uint32_t owner = capcheck_run_judge_owner_in(judge, hart, at(kind, number));
    unsigned long long shown = number;
    EXPECT(hart != capcheck_run_judge_hart(judge) || capcheck_run_judge_owner(judge, at(kind, number)) == owner);
    EXPECT(owner == 0 || capcheck_run_judge_held_in(judge, hart, at(kind, number)).cap.tag == 1);
    if (owner == 0)
        return;
    printf("owner ");
    if (kind != CAPCHECK_GRANULE && hart != 0)
        printf("%u.", (unsigned)hart);
    if (kind == CAPCHECK_GRANULE)
        printf("@%016llx %u\n", shown, (unsigned)owner);
    else
        printf("%s%llu %u\n", kind == CAPCHECK_REGISTER ? "c" : "scr", shown, (unsigned)owner);
}

/* The owners of a hart's registers. */
static void print_hart(const capcheck_run_judge *judge, uint32_t hart) {
    uint64_t place;
    for (place = 1; place < 32; place++)
        print_owner(judge, hart, CAPCHECK_REGISTER, place);
    for (place = 0; place < 32; place++)
        print_owner(judge, hart, CAPCHECK_SPECIAL, place);
}

/* Prints what `capdiag run --owners` prints after the verdict. */
static void print_owners(const capcheck_run_judge *judge, uint32_t objects) {
    uint32_t number, hart;
    uint64_t place;
    for (number = 1; number <= objects; number++) {
        capcheck_object object = capcheck_run_judge_object(judge, number);
        if (object.state != CAPCHECK_NO_SUCH_OBJECT)
            printf("object %u %llu %016llx %llx%016llx %s %llu\n", (unsigned)number, (unsigned long long)object.line,
                   (unsigned long long)object.base, (unsigned long long)object.top.high, (unsigned long long)object.top.low,
                   object.state == CAPCHECK_LIVE ? "live" : "freed", (unsigned long long)object.held);
    }
    for (hart = capcheck_run_judge_next_hart(judge, 0); hart < CAPCHECK_HARTS; hart = capcheck_run_judge_next_hart(judge, hart + 1))
        print_hart(judge, hart);
    for (place = 0; place < 0x20000; place += 16)
        print_owner(judge, 0, CAPCHECK_GRANULE, place);
    print_owner(judge, 0, CAPCHECK_GRANULE, UINT64_MAX - 15);
}

/* Passes a log in one piece, and prints the owners at its end. */
static void owners_of(const char *log, size_t length, capcheck_asks asks, uint32_t objects) {
    capcheck_run_judge judge = CAPCHECK_NO_RUN_JUDGE_YET;
    EXPECT(capcheck_run_judge_open(&judge, asks) == CAPCHECK_GOES_ON);
    EXPECT(capcheck_run_judge_lines(&judge, log, length).bytes == length);
    print_owners(&judge, objects);
    capcheck_run_judge_close(&judge);
}

/* Passes a log in pieces of a size, and returns the verdict. What was passed and not taken is passed again. */
static capcheck_run_answer in_pieces(const char *log, size_t length, size_t size, capcheck_asks asks) {
    capcheck_run_judge judge = CAPCHECK_NO_RUN_JUDGE_YET;
    capcheck_run_answer end;
    size_t from = 0, to = 0;
    EXPECT(capcheck_run_judge_open(&judge, asks) == CAPCHECK_GOES_ON);
    while (to < length) {
        capcheck_taken taken;
        to = length - to < size ? length : to + size;
        taken = capcheck_run_judge_lines(&judge, log + from, to - from);
        from += (size_t)taken.bytes;
        if (taken.state != CAPCHECK_GOES_ON) {
            capcheck_run_answer no = capcheck_run_judge_answer(&judge);
            EXPECT(taken.state == CAPCHECK_NO && no.state == CAPCHECK_NO && same(no, capcheck_run_judge_end(&judge)));
            taken = capcheck_run_judge_lines(&judge, log + from, length - from);
            EXPECT(taken.state == CAPCHECK_NO && taken.bytes == 0 && same(no, capcheck_run_judge_answer(&judge)));
            capcheck_run_judge_close(&judge);
            return no;
        }
        EXPECT(capcheck_run_judge_answer(&judge).state == CAPCHECK_GOES_ON);
    }
    /* What is left is less than a line: a faulty one, unless it is empty. */
    end = capcheck_run_judge_end(&judge);
    if (from < length && end.state == CAPCHECK_YES) {
        end.line = capcheck_run_judge_bytes((const uint8_t *)log, length, asks).line;
        end.state = CAPCHECK_NO;
        end.refusal = CAPCHECK_MISPLACED;
        end.steps = end.roots = end.objects = 0;
    }
    capcheck_run_judge_close(&judge);
    EXPECT(capcheck_run_judge_end(&judge).state == CAPCHECK_NO_JUDGE);
    return end;
}

/* Passes a step by its numbers; any other line, which is no step, as it is. */
static uint8_t pass_numbers(capcheck_run_judge *judge, const capcheck_run_line *it, const char *text, size_t length) {
    uint8_t state = capcheck_run_step(judge, it);
    return state == CAPCHECK_NO_LINE ? capcheck_run_judge_line(judge, text, length) : state;
}

/* Passes a log line by line, or by lines whose steps are passed by their numbers, and returns the verdict. */
static capcheck_run_answer line_by_line(const char *log, size_t length, capcheck_asks asks, bool numbers) {
    capcheck_run_judge judge = CAPCHECK_NO_RUN_JUDGE_YET;
    capcheck_run_answer verdict;
    uint8_t state = CAPCHECK_GOES_ON;
    size_t at = 0;
    EXPECT(capcheck_run_judge_open(&judge, asks) == CAPCHECK_GOES_ON);
    while (at < length && state == CAPCHECK_GOES_ON) {
        const char *feed = (const char *)memchr(log + at, '\n', length - at);
        size_t size = feed != NULL ? (size_t)(feed - log) + 1 - at : length - at;
        if (numbers) {
            capcheck_run_line line = capcheck_read_run_line(log + at, length - at);
            EXPECT(line.line.length == 0 || line.line.length == size);
            state = pass_numbers(&judge, &line, log + at, size);
        } else {
            state = capcheck_run_judge_line(&judge, log + at, size);
        }
        if (state != CAPCHECK_NO_LINE)
            at += size;
        EXPECT(state == CAPCHECK_GOES_ON || state == CAPCHECK_NO || (state == CAPCHECK_NO_LINE && feed == NULL));
    }
    EXPECT(capcheck_run_judge_answer(&judge).state == (state == CAPCHECK_NO ? CAPCHECK_NO : CAPCHECK_GOES_ON));
    verdict = capcheck_run_judge_end(&judge);
    if (verdict.state == CAPCHECK_YES && at < length) { /* less than a line after the end line */
        char rest[CAPCHECK_LINE_SIZE + 1];
        memcpy(rest, log + at, length - at);
        rest[length - at] = '\n';
        EXPECT(capcheck_run_judge_line(&judge, rest, length - at + 1) == CAPCHECK_NO);
        verdict = capcheck_run_judge_end(&judge);
    }
    capcheck_run_judge_close(&judge);
    return verdict;
}

static void judge_log(const char *log, size_t length, capcheck_asks asks, bool owners) {
    const size_t sizes[] = {1, 7, 4096};
    size_t i;
    capcheck_run_answer verdict = capcheck_run_judge_bytes((const uint8_t *)log, length, asks);
    for (i = 0; i < 3; i++)
        EXPECT(same(verdict, in_pieces(log, length, sizes[i], asks)));
    EXPECT(same(verdict, line_by_line(log, length, asks, false)));
    EXPECT(same(verdict, line_by_line(log, length, asks, true)));
    if (verdict.state == CAPCHECK_YES)
        printf("yes %u %u %u\n", (unsigned)verdict.steps, (unsigned)verdict.roots, (unsigned)verdict.objects);
    else
        printf("no %llu %u %s\n", (unsigned long long)verdict.line, verdict.refusal, capcheck_refusal_text(verdict.refusal));
    if (owners && verdict.state == CAPCHECK_YES)
        owners_of(log, length, asks, verdict.objects);
}

static void judge_file(const char *path, capcheck_asks asks, bool owners) {
    FILE *file = fopen(path, "rb");
    size_t length = 0, room = 1 << 20, got;
    char *log = (char *)malloc(room);
    if (file == NULL || log == NULL)
        exit(3);
    while ((got = fread(log + length, 1, room - length, file)) > 0) {
        length += got;
        if (length == room && (log = (char *)realloc(log, room *= 2)) == NULL)
            exit(3);
    }
    fclose(file);
    judge_log(log, length, asks, owners);
    free(log);
}

static int judge_files(int count, char **words) {
    capcheck_asks asks = CAPCHECK_ASKS_HELD;
    bool owners = false;
    int i;
    for (i = 2; i < count; i++) {
        if (strcmp(words[i], "--owned") == 0) {
            asks.owned = 1;
        } else if (strcmp(words[i], "--owners") == 0) {
            owners = true;
        } else if (strcmp(words[i], "--freed") == 0 && i + 1 < count) {
            const char *freed = words[++i];
            asks.held = strcmp(freed, "used") != 0;
            asks.used = strcmp(freed, "held") != 0;
        } else {
            judge_file(words[i], asks, owners);
        }
    }
    return failures == 0 ? 0 : 1;
}

static uint8_t pass(capcheck_run_judge *judge, const char *lines) {
    return capcheck_run_judge_lines(judge, lines, strlen(lines)).state;
}

#define ALL "ffff1ffffc018004"
#define BEGIN "run 1\nmode strict\nroot c1 " ALL "0000000000000000\n"

/* A run log in which c2 gets 32 bytes at 0x1000, and these are handed out. */
static void narrowed(char *lines, size_t room) {
    capcheck_cap all = {{UINT64_C(0xffff1ffffc018004), 0x1000}, 1};
    capcheck_made made = capcheck_set_bounds(all, 0x20, 1);
    EXPECT(made.refusal == CAPCHECK_NOT_REFUSED);
    (void)snprintf(lines, room,
                   BEGIN "setaddr c2 c1 0000000000001000 = 1 " ALL "0000000000001000\n"
                         "setbounds c2 c2 0000000000000020 = 1 %016llx%016llx\nobject c2\n",
                   (unsigned long long)made.cap.word.high, (unsigned long long)made.cap.word.low);
}

/* Nobody owns a place, and there is nothing at one, of a judge that isn't open or at what is no place. */
static void no_places(void) {
    static capcheck_run_judge judge = CAPCHECK_NO_RUN_JUDGE_YET;
    const capcheck_place none[] = {at(0, 0), at(CAPCHECK_REGISTER, 0), at(CAPCHECK_REGISTER, 32), at(CAPCHECK_SPECIAL, 32),
                                   at(4, 1)};
    int open;
    size_t i;
    for (open = 0; open < 2; open++) {
        for (i = 0; i < 5; i++) {
            EXPECT(capcheck_run_judge_held(&judge, none[i]).present == 0);
            EXPECT(capcheck_run_judge_owner(&judge, none[i]) == 0);
        }
        EXPECT(capcheck_run_judge_held(&judge, at(CAPCHECK_REGISTER, 1)).present == open);
        EXPECT(capcheck_run_judge_held(&judge, at(CAPCHECK_SPECIAL, 31)).present == open);
        EXPECT(capcheck_run_judge_held(&judge, at(CAPCHECK_GRANULE, UINT64_MAX)).present == open);
        EXPECT(capcheck_run_judge_object(&judge, 1).state == CAPCHECK_NO_SUCH_OBJECT);
        EXPECT(capcheck_run_judge_answer(&judge).state == (open ? CAPCHECK_GOES_ON : CAPCHECK_NO_JUDGE));
        EXPECT(capcheck_run_judge_end(&judge).state == (open ? CAPCHECK_NO : CAPCHECK_NO_JUDGE));
        if (!open)
            EXPECT(pass(&judge, "run 1\n") == CAPCHECK_NO_JUDGE && capcheck_run_judge_open(&judge, usual) == CAPCHECK_GOES_ON);
    }
    capcheck_run_judge_close(&judge);
    capcheck_run_judge_close(&judge);
}

/* An object is handed out, spread, freed and revoked, and its memory handed out again. */
static void objects(void) {
    capcheck_run_judge judge = CAPCHECK_NO_RUN_JUDGE_YET;
    capcheck_object object;
    char lines[512];
    EXPECT(capcheck_run_judge_open(&judge, usual) == CAPCHECK_GOES_ON);
    narrowed(lines, sizeof lines);
    EXPECT(pass(&judge, lines) == CAPCHECK_GOES_ON);
    object = capcheck_run_judge_object(&judge, 1);
    EXPECT(object.base == 0x1000 && object.top.low == 0x1020 && object.top.high == 0 && object.held == 1 && object.line == 6);
    EXPECT(object.state == CAPCHECK_LIVE && capcheck_run_judge_object(&judge, 2).state == CAPCHECK_NO_SUCH_OBJECT);
    EXPECT(capcheck_run_judge_owner(&judge, at(CAPCHECK_REGISTER, 2)) == 1);
    EXPECT(capcheck_run_judge_owner(&judge, at(CAPCHECK_REGISTER, 1)) == 0);
    EXPECT(pass(&judge, "sc c2 c1 16\n") == CAPCHECK_GOES_ON && capcheck_run_judge_object(&judge, 1).held == 2);
    EXPECT(capcheck_run_judge_owner(&judge, at(CAPCHECK_GRANULE, 16)) == 1);
    EXPECT(capcheck_run_judge_owner(&judge, at(CAPCHECK_GRANULE, 31)) == 1);
    EXPECT(capcheck_run_judge_owner(&judge, at(CAPCHECK_GRANULE, 15)) == 0);
    EXPECT(capcheck_run_judge_held(&judge, at(CAPCHECK_GRANULE, 31)).cap.word.low == 0x1000);
    EXPECT(capcheck_run_judge_held(&judge, at(CAPCHECK_GRANULE, 31)).cap.tag == 1);
    EXPECT(pass(&judge, "free c2\ndrop c2\n") == CAPCHECK_GOES_ON && capcheck_run_judge_object(&judge, 1).state == CAPCHECK_FREED);
    EXPECT(capcheck_run_judge_object(&judge, 1).held == 1 && capcheck_run_judge_owner(&judge, at(CAPCHECK_REGISTER, 2)) == 0);
    EXPECT(capcheck_run_judge_held(&judge, at(CAPCHECK_REGISTER, 2)).cap.tag == 0);
    EXPECT(pass(&judge, "lc c2 c1 16 = 0 " ALL "0000000000000000\n") == CAPCHECK_NO);
    EXPECT(capcheck_run_judge_answer(&judge).line == 10 && capcheck_run_judge_answer(&judge).refusal == CAPCHECK_WRONG_RESULT);
    EXPECT(capcheck_run_judge_object(&judge, 1).held == 1);
    capcheck_run_judge_close(&judge);
}

static bool is_place(capcheck_place place, uint8_t kind, uint64_t number) { return place.kind == kind && place.number == number; }

/* The first holder of an object, and the present objects by their numbers. */
static void holders(void) {
    capcheck_run_judge judge = CAPCHECK_NO_RUN_JUDGE_YET;
    char lines[512];
    EXPECT(is_place(capcheck_run_judge_holder(&judge, 1), CAPCHECK_NO_PLACE, 0) && capcheck_run_judge_next_object(&judge, 1) == 0);
    EXPECT(capcheck_run_judge_open(&judge, usual) == CAPCHECK_GOES_ON);
    narrowed(lines, sizeof lines);
    EXPECT(pass(&judge, lines) == CAPCHECK_GOES_ON && pass(&judge, "sc c2 c1 16\n") == CAPCHECK_GOES_ON);
    EXPECT(is_place(capcheck_run_judge_holder(&judge, 1), CAPCHECK_REGISTER, 2));
    EXPECT(is_place(capcheck_run_judge_holder(&judge, 0), CAPCHECK_NO_PLACE, 0));
    EXPECT(is_place(capcheck_run_judge_holder(&judge, 2), CAPCHECK_NO_PLACE, 0));
    EXPECT(capcheck_run_judge_next_object(&judge, 0) == 1 && capcheck_run_judge_next_object(&judge, 1) == 1);
    EXPECT(capcheck_run_judge_next_object(&judge, 2) == 0 && capcheck_run_judge_next_object(&judge, UINT32_MAX) == 0);
    EXPECT(pass(&judge, "drop c2\n") == CAPCHECK_GOES_ON);
    EXPECT(is_place(capcheck_run_judge_holder(&judge, 1), CAPCHECK_GRANULE, 16));
    EXPECT(pass(&judge, "free 1\n") == CAPCHECK_GOES_ON);
    EXPECT(pass(&judge, "drop @0000000000000010\n") == CAPCHECK_GOES_ON);
    EXPECT(capcheck_run_judge_next_object(&judge, 1) == 0 && is_place(capcheck_run_judge_holder(&judge, 1), CAPCHECK_NO_PLACE, 0));
    capcheck_run_judge_close(&judge);
}

/* What the registers of each hart hold, and who owns it. */
static void harts(void) {
    capcheck_run_judge judge = CAPCHECK_NO_RUN_JUDGE_YET;
    capcheck_place c1 = at(CAPCHECK_REGISTER, 1), c2 = at(CAPCHECK_REGISTER, 2), there = at(CAPCHECK_GRANULE, 16);
    char lines[512];
    EXPECT(capcheck_run_judge_hart(&judge) == 0 && capcheck_run_judge_next_hart(&judge, 0) == CAPCHECK_HARTS);
    EXPECT(capcheck_run_judge_held_in(&judge, 0, c1).present == 0 && capcheck_run_judge_owner_in(&judge, 0, c1) == 0);
    EXPECT(capcheck_run_judge_open(&judge, usual) == CAPCHECK_GOES_ON && capcheck_run_judge_next_hart(&judge, 0) == 0);
    EXPECT(capcheck_run_judge_next_hart(&judge, 1) == CAPCHECK_HARTS);
    narrowed(lines, sizeof lines);
    EXPECT(pass(&judge, lines) == CAPCHECK_GOES_ON && pass(&judge, "sc c2 c1 16\nhart 65535\n") == CAPCHECK_GOES_ON);
    EXPECT(capcheck_run_judge_hart(&judge) == 65535 && capcheck_run_judge_next_hart(&judge, 1) == 65535);
    EXPECT(capcheck_run_judge_next_hart(&judge, CAPCHECK_HARTS) == CAPCHECK_HARTS);
    EXPECT(capcheck_run_judge_held(&judge, c1).cap.tag == 0 && capcheck_run_judge_owner(&judge, c2) == 0);
    EXPECT(capcheck_run_judge_held_in(&judge, 0, c1).cap.tag == 1 && capcheck_run_judge_owner_in(&judge, 0, c2) == 1);
    EXPECT(capcheck_run_judge_held_in(&judge, 7, c1).present == 1 && capcheck_run_judge_held_in(&judge, 7, c1).cap.tag == 0);
    EXPECT(capcheck_run_judge_owner(&judge, there) == 1 && capcheck_run_judge_owner_in(&judge, 7, there) == 1);
    EXPECT(capcheck_run_judge_held_in(&judge, CAPCHECK_HARTS, c1).present == 0);
    EXPECT(capcheck_run_judge_owner_in(&judge, CAPCHECK_HARTS, there) == 0 && capcheck_run_judge_object(&judge, 1).held == 2);
    EXPECT(is_place(capcheck_run_judge_holder(&judge, 1), CAPCHECK_REGISTER, 2) && capcheck_run_judge_holder_hart(&judge, 1) == 0);
    EXPECT(pass(&judge, "hart 0\ndrop c2\nhart 65535\n") == CAPCHECK_GOES_ON);
    EXPECT(is_place(capcheck_run_judge_holder(&judge, 1), CAPCHECK_GRANULE, 16) && capcheck_run_judge_holder_hart(&judge, 1) == 0);
    EXPECT(capcheck_run_judge_line(&judge, "root c1 " ALL "0000000000000000\n", 41) == CAPCHECK_NO);
    EXPECT(capcheck_run_judge_hart(&judge) == 65535 && capcheck_run_judge_answer(&judge).refusal == CAPCHECK_MISPLACED);
    capcheck_run_judge_close(&judge);
    EXPECT(capcheck_run_judge_holder_hart(&judge, 1) == 0);
}

/* Passes a step whose kind has these registers and this number. All else has numbers that no line has. */
static uint8_t step(capcheck_run_judge *judge, uint8_t kind, uint8_t target, uint8_t source, uint8_t authority, uint64_t number) {
    capcheck_run_line it;
    memset(&it, 0xff, sizeof it);
    it.line.kind = kind;
    it.line.target = target;
    it.line.source = source;
    it.line.authority = authority;
    it.line.number = number;
    return capcheck_run_step(judge, &it);
}

/* Passes a step that accesses memory. */
static uint8_t access_step(capcheck_run_judge *judge, uint8_t kind, int16_t offset, uint8_t size, uint64_t number) {
    capcheck_run_line it;
    memset(&it, 0, sizeof it);
    it.line.kind = kind;
    it.line.target = it.line.source = it.line.authority = 1;
    it.line.offset = offset;
    it.line.size = size;
    it.line.number = number;
    return capcheck_run_step(judge, &it);
}

/* Passes a step that names places. */
static uint8_t place_step(capcheck_run_judge *judge, uint8_t kind, capcheck_place target, capcheck_place source) {
    capcheck_run_line it;
    memset(&it, 0xff, sizeof it);
    it.line.kind = kind;
    it.target = target;
    it.source = source;
    return capcheck_run_step(judge, &it);
}

/* Numbers out of range are no line, and change nothing, and so are kinds that are no step's; without a judge there is none. */
static void out_of_range(void) {
    capcheck_run_judge judge = CAPCHECK_NO_RUN_JUDGE_YET;
    capcheck_place c0 = at(CAPCHECK_REGISTER, 0), c1 = at(CAPCHECK_REGISTER, 1), scr32 = at(CAPCHECK_SPECIAL, 32);
    unsigned kind;
    int open;
    for (open = 0; open < 2; open++) {
        uint8_t none = open ? CAPCHECK_NO_LINE : CAPCHECK_NO_JUDGE;
        for (kind = CAPCHECK_KIND_MOVE; kind <= CAPCHECK_KIND_UNSEAL; kind++) {
            EXPECT(step(&judge, (uint8_t)kind, 0, 1, 1, 0) == none && step(&judge, (uint8_t)kind, 32, 1, 1, 0) == none);
            EXPECT(step(&judge, (uint8_t)kind, 1, 32, 1, 0) == none);
        }
        EXPECT(step(&judge, CAPCHECK_KIND_SEAL, 1, 1, 32, 0) == none && step(&judge, CAPCHECK_KIND_UNSEAL, 1, 1, 32, 0) == none);
        for (kind = CAPCHECK_KIND_LC; kind <= CAPCHECK_KIND_STORE; kind++)
            EXPECT(access_step(&judge, (uint8_t)kind, 2048, 1, 0) == none && access_step(&judge, (uint8_t)kind, -2049, 1, 0) == none);
        EXPECT(access_step(&judge, CAPCHECK_KIND_LOAD, 0, 3, 0) == none && access_step(&judge, CAPCHECK_KIND_STORE, 0, 1, 256) == none);
        EXPECT(place_step(&judge, CAPCHECK_KIND_DERIVE, c0, c1) == none && place_step(&judge, CAPCHECK_KIND_DERIVE, c1, scr32) == none);
        EXPECT(place_step(&judge, CAPCHECK_KIND_DERIVE, at(CAPCHECK_GRANULE, 0), c1) == none);
        EXPECT(place_step(&judge, CAPCHECK_KIND_DROP, c0, c1) == none && place_step(&judge, CAPCHECK_KIND_DROP, at(CAPCHECK_GRANULE, 8), c1) == none);
        EXPECT(step(&judge, CAPCHECK_KIND_EXCHANGE, 0, 1, 0, 0) == none && step(&judge, CAPCHECK_KIND_EXCHANGE, 1, 1, 0, 32) == none);
        EXPECT(step(&judge, CAPCHECK_KIND_INVOKE, 0, 32, 1, 0) == none && step(&judge, CAPCHECK_KIND_INVOKE, 0, 1, 32, 0) == none);
        EXPECT(step(&judge, CAPCHECK_KIND_FILL, 0, 0, 0, 8) == none && step(&judge, CAPCHECK_KIND_OBJECT, 1, 0, 0, 0) == none);
        EXPECT(step(&judge, CAPCHECK_KIND_OBJECT, 0, 1, 0, UINT64_C(1) << 32) == none && step(&judge, CAPCHECK_KIND_FREE, 0, 1, 0, 1) == none);
        EXPECT(step(&judge, CAPCHECK_KIND_FREE, 1, 0, 0, 0) == none && capcheck_run_judge_line(&judge, "run 1", 5) == none);
        for (kind = 0; kind < 256; kind++)
            if (kind < CAPCHECK_KIND_MOVE || (CAPCHECK_KIND_STORE < kind && kind < CAPCHECK_KIND_DERIVE) || CAPCHECK_KIND_FREE < kind)
                EXPECT(step(&judge, (uint8_t)kind, 1, 1, 1, 0) == none);
        if (!open)
            EXPECT(capcheck_run_judge_open(&judge, usual) == CAPCHECK_GOES_ON && pass(&judge, BEGIN) == CAPCHECK_GOES_ON);
    }
    EXPECT(capcheck_run_judge_line(&judge, "drop c1\ndrop c1\n", 16) == CAPCHECK_NO_LINE);
    EXPECT(place_step(&judge, CAPCHECK_KIND_DROP, c1, c0) == CAPCHECK_GOES_ON && capcheck_run_judge_line(&judge, "end 1\n", 6) == CAPCHECK_GOES_ON);
    EXPECT(capcheck_run_judge_end(&judge).state == CAPCHECK_YES);
    EXPECT(place_step(&judge, CAPCHECK_KIND_DROP, c1, c0) == CAPCHECK_NO); /* a step after the end line */
    EXPECT(capcheck_run_judge_answer(&judge).line == 6 && capcheck_run_judge_answer(&judge).refusal == CAPCHECK_MISPLACED);
    EXPECT(step(&judge, CAPCHECK_KIND_MOVE, 1, 2, 0, 0) == CAPCHECK_NO && capcheck_run_judge_answer(&judge).line == 6);
    capcheck_run_judge_close(&judge);
}

static bool is_cap(capcheck_cap cap, uint64_t high, uint64_t low, uint8_t tag) {
    return cap.word.high == high && cap.word.low == low && cap.tag == tag;
}

static bool expects_nothing(const capcheck_run_judge *judge) {
    capcheck_expected is = capcheck_run_judge_expected(judge);
    return is.kind == CAPCHECK_EXPECTS_NOTHING && is.number == 0 && is.size == 0 && is_cap(is.cap, 0x00001ffffc018004, 0, 0);
}

/* What the rules give for a step that records another result. */
static void expected(void) {
    capcheck_run_judge judge = CAPCHECK_NO_RUN_JUDGE_YET;
    capcheck_expected is;
    EXPECT(expects_nothing(&judge));
    EXPECT(capcheck_run_judge_open(&judge, usual) == CAPCHECK_GOES_ON && pass(&judge, BEGIN) == CAPCHECK_GOES_ON && expects_nothing(&judge));
    EXPECT(pass(&judge, "store c1 8 2 1234\nload c1 8 2 = 1235\n") == CAPCHECK_NO);
    is = capcheck_run_judge_expected(&judge);
    EXPECT(is.kind == CAPCHECK_EXPECTS_NUMBER && is.number == 0x1234 && is.size == 2 && is_cap(is.cap, 0x00001ffffc018004, 0, 0));
    EXPECT(capcheck_run_judge_open(&judge, usual) == CAPCHECK_GOES_ON && pass(&judge, BEGIN) == CAPCHECK_GOES_ON);
    EXPECT(pass(&judge, "setaddr c2 c1 0000000000000010 = 1 " ALL "0000000000000018\n") == CAPCHECK_NO);
    is = capcheck_run_judge_expected(&judge);
    EXPECT(is.kind == CAPCHECK_EXPECTS_CAPABILITY && is.number == 0 && is.size == 0 && is_cap(is.cap, 0xffff1ffffc018004, 16, 1));
    EXPECT(capcheck_run_judge_open(&judge, usual) == CAPCHECK_GOES_ON && pass(&judge, BEGIN "object c2\n") == CAPCHECK_NO && expects_nothing(&judge));
    capcheck_run_judge_close(&judge);
    EXPECT(expects_nothing(&judge));
}

/* The diagnosis, in a room that is too small and in one that isn't. */
static void reports(void) {
    static const char *const wanted = "no 4 34 NoCapability\nline object c2\nregister c2 0 00001ffffc0180040000000000000000\n";
    capcheck_run_judge judge = CAPCHECK_NO_RUN_JUDGE_YET;
    char text[CAPCHECK_REPORT_SIZE];
    uint64_t length;
    EXPECT(capcheck_run_judge_report(&judge, text, sizeof text) == 0 && capcheck_run_judge_end_report(&judge, text, sizeof text) == 0);
    EXPECT(capcheck_run_judge_open(&judge, usual) == CAPCHECK_GOES_ON && pass(&judge, BEGIN) == CAPCHECK_GOES_ON);
    EXPECT(capcheck_run_judge_report(&judge, text, sizeof text) == 0);
    length = capcheck_run_judge_end_report(&judge, text, sizeof text);
    EXPECT(length > 17 && memcmp(text, "no 4 5 Truncated\n", 17) == 0);
    EXPECT(step(&judge, CAPCHECK_KIND_OBJECT, 0, 2, 0, 0) == CAPCHECK_NO);
    length = capcheck_run_judge_report(&judge, text, sizeof text);
    EXPECT(length >= strlen(wanted) && memcmp(text, wanted, strlen(wanted)) == 0);
    EXPECT(capcheck_run_judge_report(&judge, text, 1) == length && capcheck_run_judge_end_report(&judge, text, sizeof text) == length);
    capcheck_run_judge_close(&judge);
}

/* What is asked decides what a freed object's capability may do. */
static void asked(void) {
    char lines[600];
    size_t length;
    capcheck_asks asks = CAPCHECK_ASKS_USED;
    capcheck_run_answer answer;
    narrowed(lines, sizeof lines - 80);
    strcat(lines, "free c2\nload c2 0 8 = 0000000000000000\nend 5\n");
    length = strlen(lines);
    answer = capcheck_run_judge_bytes((const uint8_t *)lines, length, usual);
    EXPECT(answer.state == CAPCHECK_YES && answer.steps == 5 && answer.roots == 1 && answer.objects == 1 && answer.line == 0);
    answer = capcheck_run_judge_bytes((const uint8_t *)lines, length, asks);
    EXPECT(answer.state == CAPCHECK_NO && answer.line == 8 && answer.refusal == CAPCHECK_OWNER_FREED && answer.objects == 0);
    asks.owned = 255;
    asks.used = 0;
    EXPECT(capcheck_run_judge_bytes((const uint8_t *)lines, length, asks).state == CAPCHECK_YES);
}

/* One allocation fails and all later ones, each in turn, while lines are handed over at once: they are taken up to a line
 * that wants memory, and no fault is told. With memory again the others get the verdict. A closed judge holds no memory. */
static void refused_in_turn(void) {
    static const char rest[] = "sc c2 c1 16\nhart 3\nhart 0\nsetaddr c3 c1 0000000010000000 = 1 ffff1ffffc0180040000000010000000\n"
                               "store c3 0 1 12\nload c3 0 1 = 12\nload c3 0 1 = 13\n";
    char lines[600];
    long turn = 0;
    bool is_refused = true, stops[4] = {false, false, false, false};
    narrowed(lines, sizeof lines - sizeof rest);
    strcat(lines, rest);
    for (; is_refused && turn < 1000; turn++) {
        const char *const object = strstr(lines, "object"), *const stored = strstr(lines, "sc c2"), *const named = strstr(lines, "store");
        const char *const hart = strstr(lines, "hart 3");
        capcheck_run_judge judge = CAPCHECK_NO_RUN_JUDGE_YET;
        capcheck_taken taken;
        capcheck_run_answer answer;
        EXPECT(capcheck_run_judge_open(&judge, usual) == CAPCHECK_GOES_ON);
        until_refused = turn;
        taken = capcheck_run_judge_lines(&judge, lines, strlen(lines));
        is_refused = until_refused == 0;
        until_refused = -1;
        if (taken.state == CAPCHECK_NO_MEMORY) {
            const char *stop = lines + taken.bytes;
            EXPECT(is_refused && (stop == object || stop == stored || stop == named || stop == hart));
            EXPECT(capcheck_run_judge_answer(&judge).state == CAPCHECK_GOES_ON);
            stops[0] = stops[0] || stop == object;
            stops[1] = stops[1] || stop == stored;
            stops[2] = stops[2] || stop == named;
            stops[3] = stops[3] || stop == hart;
            taken = capcheck_run_judge_lines(&judge, stop, strlen(stop));
            EXPECT(stop + taken.bytes == strstr(lines, "load c3 0 1 = 13"));
        }
        answer = capcheck_run_judge_answer(&judge);
        EXPECT(taken.state == CAPCHECK_NO && answer.line == 13 && answer.refusal == CAPCHECK_WRONG_RESULT);
        capcheck_run_judge_close(&judge);
        EXPECT(blocks == 0 && bytes == 0);
    }
    EXPECT(!is_refused && stops[0] && stops[1] && stops[2] && stops[3]);
}

/* Thousands of objects, each gone before the next is handed out, want no more memory than a hundred. */
static void objects_in_turn(void) {
    capcheck_run_judge judge = CAPCHECK_NO_RUN_JUDGE_YET;
    char lines[600];
    long most = 0;
    int turn;
    narrowed(lines, sizeof lines - 20);
    strcat(lines, "free c2\ndrop c2\n");
    EXPECT(capcheck_run_judge_open(&judge, usual) == CAPCHECK_GOES_ON && pass(&judge, BEGIN) == CAPCHECK_GOES_ON);
    for (turn = 1; turn <= 3000; turn++) {
        EXPECT(pass(&judge, lines + sizeof BEGIN - 1) == CAPCHECK_GOES_ON);
        if (turn <= 100 && bytes > most)
            most = bytes;
        EXPECT(bytes <= most);
    }
    EXPECT(pass(&judge, "end 15000\n") == CAPCHECK_GOES_ON && capcheck_run_judge_end(&judge).objects == 3000);
    capcheck_run_judge_close(&judge);
    EXPECT(blocks == 0 && bytes == 0);
}

int main(int count, char **words) {
    if (count > 1)
        return judge_files(count, words);
    capcheck_judge_memory(take, again, give);
    no_places();
    objects();
    holders();
    harts();
    out_of_range();
    expected();
    reports();
    asked();
    EXPECT(blocks == 0 && bytes == 0);
    refused_in_turn();
    objects_in_turn();
    return failures == 0 ? 0 : 1;
}
