/*
 * Two threads of a toy program over one malloc, which keeps freed memory in quarantine until it has swept memory and
 * registers. The recorder takes a hart for each thread. Thread 0 has its registers in the log as hart 0's, thread 1 as hart
 * 1's; they hand capabilities to each other through memory. It writes the run log to standard output:
 *
 *     threads | capdiag run        accepts the log
 *     threads one | capdiag run    the sweep leaves out the registers of the thread that didn't call malloc
 *
 * In the second one the other thread still holds a freed object where its memory is handed out again: `StillHeld`.
 */
#include <capcheck_recorder.h>

#include <stdio.h>
#include <stdlib.h>
#include <string.h>

enum {
    ROOT = 1,   /* malloc's capability of the heap: no object owns it */
    RESULT = 2, /* where malloc returns a capability */
    SHARED = 3, /* of the memory that both threads use: no object owns it */
    SWEPT = 4,  /* malloc's register for its sweep */
    FIRST = 5,  /* the program's registers */
    REGISTERS = 16,
    THREADS = 2,
    HEAP_BASE = 0x100000,
    SLOT = 64,
    SLOTS = 16,
    SHARED_BASE = 0x200000,
    GRANULES = 8,
    ROUNDS = 300
};

enum state { AVAILABLE, LIVE, QUARANTINED };

static struct thread {
    capcheck_cap c[32];
    capcheck_recorder_registers logged;
} threads[THREADS];

static capcheck_cap shared[GRANULES];
static enum state slots[SLOTS];
static capcheck_recorder recorder;
static int current; /* the thread that runs */
static int one;

static unsigned drawn(unsigned below) {
    static unsigned long seed = 1;
    seed = (seed * 1103515245 + 12345) & 0x7fffffff;
    return (unsigned)(seed >> 16) % below;
}

/* Stops if the recording doesn't go on. */
static void recorded(bool goes_on) {
    if (goes_on)
        return;
    fprintf(stderr, "threads: %s\n", recorder.error);
    exit(2);
}

/* From now on a thread runs. */
static void run(int thread) {
    current = thread;
    recorded(capcheck_recorder_hart(&recorder, (uint64_t)thread, &threads[thread].logged));
}

/* ---- Instructions of the thread that runs ---- */

static capcheck_cap *c(int number) { return &threads[current].c[number]; }

static void did(uint8_t kind, int target, int source, uint64_t number, capcheck_cap value) {
    *c(target) = value;
    recorded(capcheck_recorder_did(&recorder, kind, (uint64_t)target, (uint64_t)source, 0, number, value));
}

static void move(int target, int source) { did(CAPCHECK_KIND_MOVE, target, source, 0, *c(source)); }
static void clear_tag(int number) { did(CAPCHECK_KIND_CLEARTAG, number, number, 0, capcheck_clear_tag(*c(number))); }

static void store_capability(int source, int granule) {
    shared[granule] = *c(source);
    recorded(capcheck_recorder_stored_cap(&recorder, (uint64_t)source, capcheck_c(SHARED), granule * 16));
}

static void load_capability(int target, int granule) {
    *c(target) = capcheck_loaded(*c(SHARED), shared[granule]);
    recorded(capcheck_recorder_loaded_cap(&recorder, (uint64_t)target, capcheck_c(SHARED), granule * 16, *c(target)));
}

/* ---- malloc, its sweep, and free ---- */

/* The slot that a capability reaches, or -1. */
static int slot_of(capcheck_cap cap) {
    uint64_t base = capcheck_decode(cap.word).base;
    if (!cap.tag || base < HEAP_BASE || base >= HEAP_BASE + SLOTS * SLOT)
        return -1;
    return (int)((base - HEAP_BASE) / SLOT);
}

static bool is_stale(capcheck_cap cap) {
    int slot = slot_of(cap);
    return slot >= 0 && slots[slot] == QUARANTINED;
}

/* Takes the tag of each capability that reaches memory in quarantine, in the registers of a thread, which is stopped. */
static void sweep_registers(int thread) {
    int number, caller = current;
    run(thread);
    for (number = RESULT; number < REGISTERS; number++)
        if (number != SHARED && is_stale(*c(number)))
            clear_tag(number);
    run(caller);
}

/* The same in the registers of the threads and in memory. Then nothing is in quarantine. */
static void sweep(void) {
    int thread, granule, slot;
    for (thread = 0; thread < THREADS; thread++)
        if (!one || thread == current)
            sweep_registers(thread);
    for (granule = 0; granule < GRANULES; granule++)
        if (is_stale(shared[granule])) {
            load_capability(SWEPT, granule);
            clear_tag(SWEPT);
            store_capability(SWEPT, granule);
        }
    for (slot = 0; slot < SLOTS; slot++)
        if (slots[slot] == QUARANTINED)
            slots[slot] = AVAILABLE;
}

static int find_slot(void) {
    int slot;
    for (slot = 0; slot < SLOTS; slot++)
        if (slots[slot] == AVAILABLE)
            return slot;
    return -1;
}

/* Returns an object in RESULT, and whether there was room. */
static bool allocate(void) {
    int slot = find_slot();
    uint64_t base;
    if (slot < 0) {
        sweep();
        slot = find_slot();
    }
    if (slot < 0)
        return false;
    slots[slot] = LIVE;
    base = HEAP_BASE + (uint64_t)slot * SLOT;
    did(CAPCHECK_KIND_SETADDR, RESULT, ROOT, base, capcheck_set_addr_clear(*c(ROOT), base));
    did(CAPCHECK_KIND_SETBOUNDS, RESULT, RESULT, SLOT, capcheck_set_bounds_clear(*c(RESULT), SLOT, 0));
    recorded(capcheck_recorder_object(&recorder, RESULT, 0));
    return true;
}

static void release(int number) {
    recorded(capcheck_recorder_freed(&recorder, (uint64_t)number, 0));
    slots[slot_of(*c(number))] = QUARANTINED;
}

/* ---- The program ---- */

/* A thread allocates, copies, hands a capability over or takes one, or frees. */
static void work(void) {
    int number = FIRST + (int)drawn(REGISTERS - FIRST), other = FIRST + (int)drawn(REGISTERS - FIRST);
    int granule = (int)drawn(GRANULES), slot = slot_of(*c(number));
    switch (drawn(5)) {
    case 0:
        if (allocate())
            move(number, RESULT);
        break;
    case 1:
        move(number, other);
        break;
    case 2:
        store_capability(number, granule);
        break;
    case 3:
        load_capability(number, granule);
        break;
    default:
        if (slot >= 0 && slots[slot] == LIVE)
            release(number);
    }
}

static capcheck_cap root_of(uint64_t base, uint64_t length) {
    capcheck_wide wide = {0, length};
    capcheck_optional_word made = capcheck_root(base, wide, 0xfff);
    capcheck_cap root;
    root.word = made.word;
    root.tag = made.present;
    return root;
}

/* What a thread holds at the start. */
static void begin(int thread) {
    const capcheck_cap null = CAPCHECK_NULL;
    int number;
    for (number = 0; number < 32; number++)
        threads[thread].c[number] = null;
    run(thread);
    *c(ROOT) = root_of(HEAP_BASE, SLOTS * SLOT);
    *c(SHARED) = root_of(SHARED_BASE, GRANULES * 16);
    recorded(capcheck_recorder_root(&recorder, capcheck_c(ROOT), c(ROOT)->word));
    recorded(capcheck_recorder_root(&recorder, capcheck_c(SHARED), c(SHARED)->word));
}

int main(int count, char **words) {
    int thread, round;
    one = count == 2 && strcmp(words[1], "one") == 0;
    if (count > 2 || (count == 2 && !one)) {
        fprintf(stderr, "usage: threads [one]\n");
        return 2;
    }
    for (round = 0; round < GRANULES; round++)
        shared[round].word = capcheck_null();
    recorded(capcheck_recorder_start(&recorder, NULL, capcheck_recorder_to_file, stdout, 1));
    for (thread = 0; thread < THREADS; thread++)
        begin(thread);
    for (round = 0; round < ROUNDS; round++) {
        run((int)drawn(THREADS));
        work();
    }
    run(1);
    recorded(capcheck_recorder_thread_ended(&recorder));
    recorded(capcheck_recorder_end(&recorder));
    return fflush(stdout) != 0 || ferror(stdout) ? 2 : 0;
}
