/*
 * Which faults of a machine a recorder finds. A small machine runs one program, correctly and then with one fault at a time.
 * It records each run twice: the steps by capcheck_recorder_did, and by capcheck_recorder_wrote. Each line goes to a judge,
 * and the machine stops at the first faulty one. It prints the verdicts:
 *
 *     bounds one byte too long        did no 9 23 WrongResult         wrote yes
 *
 * Status: 0 if all verdicts, and the lines that are refused, are those of the table `faults`. docs/RECORDING.md has the
 * same table. It is C and C++.
 */
#include <capcheck_recorder.h>

#include <stdio.h>
#include <string.h>

enum fault {
    NONE, TOO_LONG, TOO_SHORT, ROUNDED_DOWN, WIDENED, PERMISSION_KEPT, TAG_KEPT, SAME_ADDRESS, TAG_LOST, SEALED_MOVED, OTHER_TYPE,
    GLOBAL_GAINED, OPENED_ELSEWHERE, PLAIN_LINK, OTHER_LINK, DATA_KEPT_TAG, PAST_THE_END, PAST_THE_END_BY_DDC, LC_PAST_THE_END,
    STALE, FAULTS
};

/* What the judge has to say: the refusal, 0 for none, and the beginning of the line that is refused. */
typedef struct expected {
    const char *name;
    unsigned did;
    const char *did_line;
    unsigned wrote;
    const char *wrote_line;
} expected;

static const expected faults[FAULTS] = {
    {"none", 0, "end", 0, "end"},
    {"bounds one byte too long", 23, "setbounds c3 c3 00000000000000cd", 0, "end"},
    {"bounds one byte too short", 23, "setbounds c3 c3 00000000000000cd", 0, "end"},
    {"bounds rounded down", 23, "setbounds c4 c4 0000000000001309", 0, "end"},
    {"bounds widened", 23, "setbounds c5 c3 0000000000000100", 31, "derive c5 c3 = 1"},
    {"permission kept", 23, "andperm c3 c3", 0, "end"},
    {"tag kept out of range", 23, "setaddr c5 c3", 31, "derive c5 c3 = 1"},
    {"address not set", 23, "setaddr c5 c3", 0, "end"},
    {"tag lost by a move", 23, "move c6 c3", 0, "end"},
    {"sealed one moved", 23, "setaddr c5 c7", 32, "derive c5 c7 = 1"},
    {"sealed with another type", 23, "seal c7 c6 c8", 23, "seal c7 c6 c8"},
    {"Global gained by unsealing", 23, "unseal c9 c7 c8", 23, "unseal c9 c7 c8"},
    {"sentry opened elsewhere", 32, "exchange c10 c11 scr0", 32, "exchange c10 c11 scr0"},
    {"link without a seal", 0, "end", 0, "end"},
    {"link to another address", 0, "end", 0, "end"},
    {"tag kept under data", 23, "lc c12 c2", 23, "lc c12 c2"},
    {"load past the end", 17, "load c3", 17, "load c3"},
    {"store by DDC past the end", 17, "store c30", 17, "store c30"},
    {"LC into c0 past the end", 17, "load c3", 17, "load c3"},
    {"sweep misses a place", 36, "object c3", 36, "object c3"},
};

/* ---- The machine ---- */

enum { HEAP = 0x4000, STACK = 0x8000, SPARE = 30, DDC = 1, GRANULES = 0x1000 };

static capcheck_cap c[32], scr[32];
static capcheck_word memory[GRANULES];
static uint8_t tags[GRANULES];
static enum fault fault;
static bool by_did;
static capcheck_recorder r;
static char last[CAPCHECK_LINE_SIZE + 1]; /* the last line */

static bool keep(void *to, const char *line, size_t length) {
    (void)to;
    memcpy(last, line, length);
    last[length] = 0;
    return true;
}

/* After a refused line the recorder passes on nothing, so the program may go on. */
static void recorded(bool goes_on) { (void)goes_on; }

static capcheck_cap typed(capcheck_cap cap, uint32_t type) {
    capcheck_fields fields = capcheck_split(cap.word);
    fields.otype = type;
    cap.word = capcheck_join(fields).word;
    return cap;
}

/* An instruction wrote cD, from cS and perhaps an authority or an integer. Seals have no other way: a `derive` keeps them. */
static void wrote(uint8_t kind, unsigned d, unsigned s, unsigned other, uint64_t number, capcheck_cap value) {
    c[d] = value;
    if (by_did || kind == CAPCHECK_KIND_SEAL || kind == CAPCHECK_KIND_UNSEAL)
        recorded(capcheck_recorder_did(&r, kind, d, s, other, number, value));
    else
        recorded(capcheck_recorder_wrote(&r, capcheck_c(d), capcheck_c(s), value));
}

static void move(unsigned d, unsigned s) {
    capcheck_cap value = c[s];
    if (fault == TAG_LOST)
        value.tag = 0;
    wrote(CAPCHECK_KIND_MOVE, d, s, 0, 0, value);
}

static void set_address(unsigned d, unsigned s, uint64_t address) {
    capcheck_cap value = capcheck_set_addr_clear(c[s], address);
    if ((fault == TAG_KEPT && d == 5 && address > 0x100000) || (fault == SEALED_MOVED && capcheck_sealed(c[s].word)))
        value.tag = c[s].tag;
    if (fault == SAME_ADDRESS && d == 5)
        value = c[s];
    wrote(CAPCHECK_KIND_SETADDR, d, s, 0, address, value);
}

static void set_bounds(unsigned d, unsigned s, uint64_t length) {
    uint64_t made = length;
    capcheck_cap value;
    if (length == 0xcd && (fault == TOO_LONG || fault == TOO_SHORT))
        made = fault == TOO_LONG ? length + 1 : length - 1;
    if (length == 0x1309 && fault == ROUNDED_DOWN)
        made = 0x1308;
    value = capcheck_set_bounds_clear(c[s], made, 0);
    if (fault == WIDENED)
        value.tag = c[s].tag;
    wrote(CAPCHECK_KIND_SETBOUNDS, d, s, 0, length, value);
}

static void and_permissions(unsigned d, unsigned s, uint64_t mask) {
    wrote(CAPCHECK_KIND_ANDPERM, d, s, 0, mask, capcheck_and_perm_clear(c[s], fault == PERMISSION_KEPT ? mask | CAPCHECK_STORE : mask));
}

static void overwrite(unsigned d, uint64_t integer) {
    c[d].word = capcheck_null();
    c[d].word.low = integer;
    c[d].tag = 0;
    recorded(capcheck_recorder_overwrote(&r, d, integer));
}

static void store_cap(unsigned s, unsigned authority, int64_t offset) {
    uint64_t granule = (c[authority].word.low + (uint64_t)offset) / 16 % GRANULES;
    memory[granule] = c[s].word;
    tags[granule] = c[s].tag;
    recorded(capcheck_recorder_stored_cap(&r, s, capcheck_c(authority), offset));
}

static void load_cap(unsigned d, unsigned authority, int64_t offset) {
    uint64_t granule = (c[authority].word.low + (uint64_t)offset) / 16 % GRANULES;
    capcheck_cap value;
    value.word = memory[granule];
    value.tag = tags[granule];
    recorded(capcheck_recorder_loaded_cap(&r, d, capcheck_c(authority), offset, value));
    if (d != 0)
        c[d] = value;
}

/* Stores eight bytes, the lower half of a granule. */
static void store_data(unsigned authority, int64_t offset, uint64_t value) {
    uint64_t granule = (c[authority].word.low + (uint64_t)offset) / 16 % GRANULES;
    memory[granule].low = value;
    if (fault != DATA_KEPT_TAG)
        tags[granule] = 0;
    recorded(capcheck_recorder_stored(&r, capcheck_c(authority), offset, 8, value));
}

/* ---- The program ---- */

static void allocate(unsigned d, uint64_t address, uint64_t length) {
    set_address(d, 1, address);
    set_bounds(d, d, length);
    and_permissions(d, d, 0x35); /* Global, Load, Load Capability, Store Capability */
    recorded(capcheck_recorder_object(&r, d, 0));
}

static void derivations(void) {
    allocate(3, HEAP, 0xcd);
    set_address(4, 1, HEAP + 0x1000);
    set_bounds(4, 4, 0x1309);
    set_bounds(5, 3, 0x100); /* longer than the object */
    set_address(5, 3, HEAP + 0x10);
    set_address(5, 3, 0x7000000); /* out of the representable range */
    move(6, 3);
    set_address(8, 1, 0x20);
    wrote(CAPCHECK_KIND_ANDPERM, 8, 8, 0, 0x280, capcheck_and_perm_clear(c[8], 0x280)); /* Seal, Unseal */
    wrote(CAPCHECK_KIND_SEAL, 7, 6, 8, 0, fault == OTHER_TYPE ? typed(c[6], 0x21) : capcheck_seal_clear(c[6], c[8]));
    set_address(5, 7, HEAP + 8);
    wrote(CAPCHECK_KIND_UNSEAL, 9, 7, 8, 0, fault == GLOBAL_GAINED ? c[6] : capcheck_unseal_clear(c[7], c[8]));
    overwrite(5, 0);
    overwrite(6, 0);
    overwrite(7, 0);
    overwrite(9, 0);
}

/* A call through a sentry: CJALR c10, c11. */
static void call(void) {
    capcheck_cap link = typed(capcheck_set_addr_clear(scr[0], 0x1004), CAPCHECK_OTYPE_SENTRY), entry = c[1];
    entry = typed(capcheck_set_addr_clear(entry, 0x1800), CAPCHECK_OTYPE_SENTRY);
    c[11] = entry;
    recorded(capcheck_recorder_wrote(&r, capcheck_c(11), capcheck_c(1), entry));
    if (fault == PLAIN_LINK)
        link = typed(link, CAPCHECK_OTYPE_UNSEALED);
    if (fault == OTHER_LINK)
        link = typed(capcheck_set_addr_clear(scr[0], 0x1008), CAPCHECK_OTYPE_SENTRY);
    scr[0] = typed(entry, CAPCHECK_OTYPE_UNSEALED);
    if (fault == OPENED_ELSEWHERE)
        scr[0].word.low += 8;
    c[10] = link;
    recorded(capcheck_recorder_exchanged(&r, 10, capcheck_c(11), 0, link, scr[0]));
}

static void accesses(void) {
    const capcheck_cap null = CAPCHECK_NULL;
    store_cap(3, 2, 0); /* the program spills the object's capability, and writes data over another copy */
    store_cap(3, 2, 16);
    store_data(2, 16, 0x77);
    load_cap(12, 2, 16);
    overwrite(12, 0);
    recorded(capcheck_recorder_loaded(&r, capcheck_c(3), 0xc0, 8, 0));
    if (fault == PAST_THE_END)
        recorded(capcheck_recorder_loaded(&r, capcheck_c(3), 0xd0, 8, 0)); /* it has to trap */
    load_cap(0, 3, 0xb0);
    if (fault == LC_PAST_THE_END)
        recorded(capcheck_recorder_loaded_cap(&r, 0, capcheck_c(3), 0xc0, null));
}

/* A sandbox: DDC is an object's capability while the program stores through it. No copy of it is left. */
static void sandbox(void) {
    capcheck_cap all = scr[DDC];
    wrote(CAPCHECK_KIND_SETADDR, 13, 1, 0, HEAP + 0x3000, capcheck_set_addr_clear(c[1], HEAP + 0x3000));
    wrote(CAPCHECK_KIND_SETBOUNDS, 13, 13, 0, 64, capcheck_set_bounds_clear(c[13], 64, 0));
    recorded(capcheck_recorder_object(&r, 13, 0));
    recorded(capcheck_recorder_exchanged(&r, 14, capcheck_c(13), DDC, all, c[13]));
    recorded(capcheck_recorder_stored(&r, capcheck_scr(DDC), 8, 8, 7));
    if (fault == PAST_THE_END_BY_DDC)
        recorded(capcheck_recorder_stored(&r, capcheck_scr(DDC), 64, 8, 7));
    recorded(capcheck_recorder_exchanged(&r, 0, capcheck_c(14), DDC, c[13], all));
    recorded(capcheck_recorder_freed(&r, 13, 0));
    overwrite(13, 0);
    overwrite(14, 0);
}

/* The object is freed, a sweep clears the tags of all copies, and its memory is handed out again. */
static void free_and_reuse(void) {
    recorded(capcheck_recorder_freed(&r, 3, 0));
    overwrite(3, 0);
    if (fault != STALE) {
        tags[STACK / 16] = 0;
        recorded(capcheck_recorder_dropped(&r, capcheck_granule(STACK)));
    }
    allocate(3, HEAP, 64);
}

/* Runs the program, and returns the verdict. */
static capcheck_run_answer run(void) {
    const capcheck_cap null = CAPCHECK_NULL;
    const capcheck_asks asks = CAPCHECK_ASKS_HELD;
    capcheck_run_judge judge = CAPCHECK_NO_RUN_JUDGE_YET;
    capcheck_wide whole = {1, 0};
    capcheck_run_answer answer;
    size_t i;
    memset(tags, 0, sizeof tags);
    for (i = 0; i < 32; i++)
        c[i] = scr[i] = null;
    for (i = 0; i < GRANULES; i++)
        memory[i] = null.word;
    c[1].word = capcheck_root(0, whole, CAPCHECK_ALL_PERMISSIONS).word;
    c[1].tag = 1;
    c[2] = capcheck_set_bounds_clear(capcheck_set_addr_clear(c[1], STACK), 64, 0);
    scr[0] = scr[DDC] = c[1];
    recorded(capcheck_run_judge_open(&judge, asks) == CAPCHECK_GOES_ON);
    recorded(capcheck_recorder_start(&r, &judge, keep, NULL, 1));
    r.spare = SPARE;
    recorded(capcheck_recorder_root(&r, capcheck_c(1), c[1].word));
    recorded(capcheck_recorder_root(&r, capcheck_c(2), c[2].word));
    recorded(capcheck_recorder_root(&r, capcheck_scr(0), scr[0].word));
    recorded(capcheck_recorder_root(&r, capcheck_scr(DDC), scr[DDC].word));
    derivations();
    call();
    accesses();
    sandbox();
    sandbox();
    free_and_reuse();
    recorded(capcheck_recorder_end(&r));
    answer = capcheck_run_judge_end(&judge);
    capcheck_run_judge_close(&judge);
    return answer;
}

/* Prints a verdict, and returns whether it is the one that is wanted, at the last line. */
static bool judged(const char *way, unsigned refusal, const char *line) {
    capcheck_run_answer answer = run();
    bool yes = answer.state == CAPCHECK_YES;
    char said[64] = "yes";
    if (!yes)
        snprintf(said, sizeof said, "no %llu %u %s", (unsigned long long)answer.line, (unsigned)answer.refusal,
                 capcheck_refusal_text(answer.refusal));
    printf("  %s %-24s", way, said);
    if (yes ? refusal != 0 || r.error[0] != 0 : answer.refusal != refusal || answer.line != r.lines || strcmp(r.error, said) != 0)
        return false;
    return strncmp(last, line, strlen(line)) == 0;
}

int main(void) {
    int wrong = 0, number;
    for (number = 0; number < FAULTS; number++) {
        const expected *it = &faults[number];
        bool is_so;
        fault = (enum fault)number;
        printf("%-28s", it->name);
        by_did = true;
        is_so = judged("did", it->did, it->did_line);
        if (!is_so)
            fprintf(stderr, "faults.c: %s, by did: not as expected: %s\n%s", it->name, r.error, last);
        by_did = false;
        if (!judged("wrote", it->wrote, it->wrote_line)) {
            fprintf(stderr, "faults.c: %s, by wrote: not as expected: %s\n%s", it->name, r.error, last);
            is_so = false;
        }
        puts("");
        wrong += !is_so;
    }
    return wrong != 0;
}
