/*
 * A toy machine whose allocator keeps freed memory in quarantine until a revoker has swept registers and memory, over the
 * proved library of words. A program on it copies capabilities into registers, special registers and memory, and leaves
 * some of them there after `free`. It writes the run log to standard output:
 *
 *     revoker | capdiag run          accepts the log
 *     revoker skips | capdiag run    the sweep leaves out the special registers
 *     revoker early | capdiag run    memory is handed out again before the sweep
 *
 * In the last two a freed object's capability survives where its memory is handed out again, and the judge names that
 * line: `StillHeld`. Built with JUDGED and linked with the judge, the machine passes each line to the judge, stops at that
 * very line, and says which places still hold a freed object.
 */
#ifdef JUDGED
#include <capcheck_judge.h>
#else
#include <capcheck.h>
#endif

#include <inttypes.h>
#include <stdio.h>
#include <stdlib.h>
#include <string.h>

enum {
    ROOT = 1,      /* the allocator's capability of the heap: no object owns it */
    RESULT = 2,    /* where malloc returns a capability, and free takes one */
    SWEPT = 3,     /* the revoker's register */
    STACK = 4,     /* the program's capability of its stack: no object owns it */
    FIRST = 5,     /* the program's registers */
    REGISTERS = 16,
    SPECIALS = 32, /* scr3 and scr4 are the program's, as thread pointers may be */
    HEAP_BASE = 0x100000,
    SLOT = 64,
    SLOTS = 16,
    STACK_BASE = 0x200000,
    STACK_GRANULES = 32,
    GRANULE = 16,
    ROUNDS = 400
};

enum state { AVAILABLE, LIVE, QUARANTINED };

static capcheck_cap registers[32], specials[SPECIALS], stack[STACK_GRANULES];
static enum state slots[SLOTS];
static unsigned long steps;
static unsigned long seed = 1;
static int skips, early;

static unsigned drawn(unsigned below) {
    seed = (seed * 1103515245 + 12345) & 0x7fffffff;
    return (unsigned)(seed >> 16) % below;
}

/* ---- The log ---- */

static capcheck_place place_of(uint8_t kind, int number) {
    return (capcheck_place){.number = (uint64_t)number, .kind = kind};
}

#ifdef JUDGED
static capcheck_run_judge judge = CAPCHECK_NO_RUN_JUDGE_YET;

static void open_judge(void) {
    static const capcheck_asks asks = CAPCHECK_ASKS_HELD;
    if (capcheck_run_judge_open(&judge, asks) != CAPCHECK_GOES_ON)
        exit(3);
}

static void print_holder(const char *name, uint8_t kind, int number) {
    uint32_t owner = capcheck_run_judge_owner(&judge, place_of(kind, number));
    if (owner != 0 && capcheck_run_judge_object(&judge, owner).state == CAPCHECK_FREED)
        fprintf(stderr, "revoker: %s%d still holds object %" PRIu32 "\n", name, number, owner);
}

/* Says which registers still hold a freed object, and stops. */
static void stop_at(capcheck_run_answer no) {
    fprintf(stderr, "revoker: stopped at line %" PRIu64 ": %s\n", no.line, capcheck_refusal_text(no.refusal));
    for (int number = 1; number < 32; number++)
        print_holder("c", CAPCHECK_REGISTER, number);
    for (int number = 0; number < SPECIALS; number++)
        print_holder("scr", CAPCHECK_SPECIAL, number);
    exit(1);
}

/* Passes a line to the judge, and stops at the first faulty one. */
static void judge_line(const char *line, size_t length) {
    if (capcheck_run_judge_line(&judge, line, length) != CAPCHECK_GOES_ON)
        stop_at(capcheck_run_judge_answer(&judge));
}
#else
static void open_judge(void) {}
static void judge_line(const char *line, size_t length) { (void)line, (void)length; }
#endif

/* Writes a line as the library wrote it. */
static void put_line(const char *line, size_t length) {
    fwrite(line, 1, length, stdout);
    judge_line(line, length);
}

static void put_step(const char *line, size_t length) {
    put_line(line, length);
    steps++;
}

static void log_object(int number) {
    char line[CAPCHECK_LINE_SIZE];
    put_step(line, capcheck_line_object(line, (uint64_t)number, 0));
}

static void log_free(int number) {
    char line[CAPCHECK_LINE_SIZE];
    put_step(line, capcheck_line_free(line, (uint64_t)number, 0));
}

/* ---- Steps of the machine ---- */

static void derive_special(int number, int source) {
    char line[CAPCHECK_LINE_SIZE];
    specials[number] = registers[source];
    put_step(line, capcheck_line_derive(line, place_of(CAPCHECK_SPECIAL, number), place_of(CAPCHECK_REGISTER, source),
                                        specials[number]));
}

static void read_special(int target, int number) {
    char line[CAPCHECK_LINE_SIZE];
    registers[target] = specials[number];
    put_step(line, capcheck_line_derive(line, place_of(CAPCHECK_REGISTER, target), place_of(CAPCHECK_SPECIAL, number),
                                        registers[target]));
}

static void drop_special(int number) {
    char line[CAPCHECK_LINE_SIZE];
    specials[number].tag = 0;
    put_step(line, capcheck_line_drop(line, place_of(CAPCHECK_SPECIAL, number)));
}

static void move(int target, int source) {
    char line[CAPCHECK_LINE_SIZE];
    registers[target] = registers[source];
    put_step(line, capcheck_line_move(line, target, source, registers[target]));
}

static void set_address(int target, int source, uint64_t address) {
    char line[CAPCHECK_LINE_SIZE];
    registers[target] = capcheck_set_addr_clear(registers[source], address);
    put_step(line, capcheck_line_setaddr(line, target, source, address, registers[target]));
}

static void set_bounds(int target, int source, uint64_t length) {
    char line[CAPCHECK_LINE_SIZE];
    registers[target] = capcheck_set_bounds_clear(registers[source], length, 0);
    put_step(line, capcheck_line_setbounds(line, target, source, length, registers[target]));
}

static void clear_tag(int target, int source) {
    char line[CAPCHECK_LINE_SIZE];
    registers[target] = capcheck_clear_tag(registers[source]);
    put_step(line, capcheck_line_cleartag(line, target, source, registers[target]));
}

static void store_capability(int source, int granule) {
    char line[CAPCHECK_LINE_SIZE];
    stack[granule] = registers[source];
    put_step(line, capcheck_line_sc(line, source, STACK, granule * GRANULE));
}

static void load_capability(int target, int granule) {
    char line[CAPCHECK_LINE_SIZE];
    registers[target] = capcheck_loaded(registers[STACK], stack[granule]);
    put_step(line, capcheck_line_lc(line, target, STACK, granule * GRANULE, registers[target]));
}

/* ---- The allocator and its revoker ---- */

/* The slot that a capability reaches, or -1. */
static int slot_of(capcheck_cap cap) {
    uint64_t base = capcheck_decode(cap.word).base;
    if (!cap.tag || base < HEAP_BASE || base >= HEAP_BASE + SLOTS * SLOT)
        return -1;
    return (int)((base - HEAP_BASE) / SLOT);
}

static int is_stale(capcheck_cap cap) {
    int slot = slot_of(cap);
    return slot >= 0 && slots[slot] == QUARANTINED;
}

/* Takes the tag of each capability that reaches memory in quarantine: in the program's registers and special registers,
 * and on its stack by loads and stores of the hart. Then nothing is in quarantine. */
static void sweep(void) {
    for (int number = RESULT; number < REGISTERS; number++)
        if (number != STACK && is_stale(registers[number]))
            clear_tag(number, number);
    for (int number = 0; !skips && number < SPECIALS; number++)
        if (is_stale(specials[number]))
            drop_special(number);
    for (int granule = 0; granule < STACK_GRANULES; granule++)
        if (is_stale(stack[granule])) {
            load_capability(SWEPT, granule);
            clear_tag(SWEPT, SWEPT);
            store_capability(SWEPT, granule);
        }
    for (int slot = 0; slot < SLOTS; slot++)
        if (slots[slot] == QUARANTINED)
            slots[slot] = AVAILABLE;
}

static int find_slot(void) {
    for (int slot = 0; slot < SLOTS; slot++)
        if (slots[slot] == AVAILABLE || (early && slots[slot] == QUARANTINED))
            return slot;
    return -1;
}

/* Returns an object in RESULT, and whether there was room. */
static int allocate(void) {
    int slot = find_slot();
    if (slot < 0) {
        sweep();
        slot = find_slot();
    }
    if (slot < 0)
        return 0;
    slots[slot] = LIVE;
    set_address(RESULT, ROOT, HEAP_BASE + (uint64_t)slot * SLOT);
    set_bounds(RESULT, RESULT, SLOT);
    log_object(RESULT);
    return 1;
}

static void release(int number) {
    log_free(number);
    slots[slot_of(registers[number])] = QUARANTINED;
}

/* ---- The program ---- */

static void work(void) {
    int number = FIRST + (int)drawn(REGISTERS - FIRST);
    int other = FIRST + (int)drawn(REGISTERS - FIRST);
    int granule = (int)drawn(STACK_GRANULES);
    int slot = slot_of(registers[number]);
    switch (drawn(8)) {
    case 0:
    case 1:
        if (allocate())
            move(number, RESULT);
        break;
    case 2:
        move(number, other);
        break;
    case 3:
        store_capability(number, granule);
        break;
    case 4:
        load_capability(number, granule);
        break;
    case 5:
        derive_special(3 + (int)drawn(2), number);
        break;
    case 6:
        read_special(number, 3 + (int)drawn(2));
        break;
    default:
        if (slot >= 0 && slots[slot] == LIVE)
            release(number);
    }
}

static capcheck_cap root_of(uint64_t base, uint64_t length) {
    capcheck_wide wide = {.low = length, .high = 0};
    capcheck_optional_word made = capcheck_root(base, wide, 0xfff);
    if (!made.present) {
        fprintf(stderr, "revoker: no root has these bounds\n");
        exit(2);
    }
    return (capcheck_cap){.word = made.word, .tag = 1};
}

int main(int count, char **words) {
    char line[CAPCHECK_LINE_SIZE];
    skips = count == 2 && strcmp(words[1], "skips") == 0;
    early = count == 2 && strcmp(words[1], "early") == 0;
    if (count > 2 || (count == 2 && !skips && !early)) {
        fprintf(stderr, "usage: revoker [skips | early]\n");
        return 2;
    }
    for (int number = 0; number < 32; number++)
        registers[number].word = specials[number].word = capcheck_null();
    for (int granule = 0; granule < STACK_GRANULES; granule++)
        stack[granule].word = capcheck_null();
    registers[ROOT] = root_of(HEAP_BASE, SLOTS * SLOT);
    registers[STACK] = root_of(STACK_BASE, STACK_GRANULES * GRANULE);
    open_judge();
    put_line(line, capcheck_line_run_version(line));
    put_line(line, capcheck_line_mode(line, 1));
    put_line(line, capcheck_line_root(line, ROOT, registers[ROOT].word));
    put_line(line, capcheck_line_root(line, STACK, registers[STACK].word));
    for (int round = 0; round < ROUNDS; round++)
        work();
    put_line(line, capcheck_line_end(line, steps));
    return fflush(stdout) != 0 || ferror(stdout) ? 2 : 0;
}
