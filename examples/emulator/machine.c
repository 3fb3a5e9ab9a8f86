/*
 * A small machine that runs a random program, and prints the run in one of these ways:
 *
 *     machine own SEED [BUG]      a run log, by lines of its own
 *     machine did SEED [BUG]      a run log by the recorder, each instruction that has a step as that step
 *     machine wrote SEED [BUG]    the same, each as `derive`
 *     machine events SEED [BUG]   a trace, one JSON object a line
 *     machine qemu SEED [BUG]     a trace in the form of QEMU-CHERI's instruction log, as far as it is remembered
 *
 * The program calls functions, spills capabilities to its stack, allocates and frees objects, and traps. BUG is a fault of the
 * machine: long, short, permission, tag, address, sentry, memory or stale. STEPS, in the environment, is how many times the
 * program goes on; by default 60. After 1,000 steps it begins anew. docs/TRACES.md says how to judge what is printed.
 */
#include <capcheck_recorder.h>

#include <stdio.h>
#include <stdlib.h>
#include <string.h>

enum way { OWN, DID, WROTE, EVENTS, QEMU };
enum bug { NONE, LONG, SHORT, PERMISSION, TAG, ADDRESS, SENTRY, MEMORY, STALE };

enum {
    MEM = 0x10000, HEAP = 0x10000, SLOTS = 4, SLOT = 0x400, STACK = 0x18000, STACK_SIZE = 0x400, TABLE = 0x300 /* on the stack: the objects */, GRANULES = 0x1000,
    CODE = 0x1000, FUNCTION = 0x2000, MALLOC = 0x2100, FREE = 0x2200, HANDLER = 0x3000,
    RA = 1, SP = 2, A0 = 10, A1 = 11, A5 = 15, HEAP_CAP = 18, ENTRY = 20, SEALER = 21, TEMP = 28, SPARE = 31,
    PCC = 0, DDC = 1, KERNEL = 27, MTCC = 28, MSCRATCHC = 30, MEPCC = 31
};

static const char *const names[] = {"cnull", "cra", "csp", "cgp", "ctp", "ct0", "ct1", "ct2", "cs0", "cs1", "ca0",
                                    "ca1", "ca2", "ca3", "ca4", "ca5", "ca6", "ca7", "cs2", "cs3", "cs4", "cs5",
                                    "cs6", "cs7", "cs8", "cs9", "cs10", "cs11", "ct3", "ct4", "ct5", "ct6"};
static const unsigned roots[] = {0, 1, 4, 5, 7, 12, 13, 15, 27, 28, 29, 31};

static capcheck_cap c[32], scr[32];
static capcheck_word memory[GRANULES];
static uint8_t tags[GRANULES];
static uint64_t pc = CODE, steps;
static unsigned long long events;
static enum way way;
static enum bug bug;
static capcheck_recorder r;

static void stop(const char *why) {
    fprintf(stderr, "machine: %s\n", why);
    exit(2);
}

/* ---- What each way prints ---- */

typedef unsigned long long big;
#define WORD(cap) (cap).tag != 0, (big)(cap).word.high, (big)(cap).word.low
#define VALUE "%d %016llx%016llx"
#define EVENT printf("{\"n\":%llu,", events++), printf

static void own(const char *line, size_t length) {
    if (length == 0 || fwrite(line, 1, length, stdout) != length)
        stop("a line can't be written");
    steps++;
}

#define LINE(kind, ...) do { char line[CAPCHECK_LINE_SIZE]; own(line, capcheck_line_##kind(line, __VA_ARGS__)); } while (0)
#define RECORD(kind, ...) do { if (!capcheck_recorder_##kind(__VA_ARGS__)) stop(r.error); } while (0)

/* The line of an instruction, and the lines of what it wrote. */
static void print_instruction(const char *name, const char *operands) {
    if (way == QEMU)
        printf("[0:0] 0x%016llx:  00000013          %-22s  %s\n", (big)pc, name, operands);
}

static void print_register(const char *name, capcheck_cap cap) {
    capcheck_bounds bounds = capcheck_decode(cap.word);
    capcheck_fields fields = capcheck_split(cap.word);
    uint64_t over = bounds.top.high - (bounds.top.low < bounds.base); /* above 64 bits, or negative */
    if (way == QEMU)
        printf("    Write %s|v:%d s:%d p:%08lx f:%d b:%016llx l:%016llx\n             |o:%016llx t:%lx\n", name, cap.tag != 0,
               capcheck_sealed(cap.word), (unsigned long)capcheck_perm_view(cap.word), fields.flag, (big)bounds.base,
               over != 0 ? ~0ULL : (big)(bounds.top.low - bounds.base), (big)(cap.word.low - bounds.base), (unsigned long)fields.otype);
}

static void print_memory(const char *what, uint64_t address, capcheck_cap cap) {
    if (way == QEMU)
        printf("    Cap Memory %s [%016llx] = v:%d PESBT:%016llx Cursor:%016llx\n", what, (big)address, cap.tag != 0,
               (big)(cap.word.high ^ capcheck_null().high), (big)cap.word.low);
}

/* An instruction wrote cD: `number` is its operand as a step has it, and `operand` the text of that. */
static void did(uint8_t kind, const char *name, unsigned d, unsigned s, unsigned other, uint64_t number, const char *operand,
                capcheck_cap value) {
    bool has_other = kind == CAPCHECK_KIND_SEAL || kind == CAPCHECK_KIND_UNSEAL;
    capcheck_cap cap = value;
    char text[64];
    snprintf(text, sizeof text, *operand ? "%s,%s,%s" : "%s,%s", names[d], names[s], operand);
    print_instruction(name, text);
    print_register(names[d], value);
    if (way == DID || (way == WROTE && has_other))
        RECORD(did, &r, kind, d, s, other, number, value);
    else if (way == WROTE)
        RECORD(wrote, &r, capcheck_c(d), capcheck_c(s), value);
    else if (way == EVENTS) {
        EVENT("\"do\":\"%s\",\"target\":\"c%u\",\"source\":\"c%u\",", capcheck_kind_text(kind), d, s);
        if (has_other)
            printf("\"other\":\"c%u\",", other);
        else if (kind != CAPCHECK_KIND_MOVE)
            printf("\"number\":\"0x%llx\",", (big)number);
        printf("\"value\":\"" VALUE "\"}\n", WORD(value));
    } else if (way == OWN)
        switch (kind) {
        case CAPCHECK_KIND_MOVE: LINE(move, d, s, cap); break;
        case CAPCHECK_KIND_SETBOUNDS: LINE(setbounds, d, s, number, cap); break;
        case CAPCHECK_KIND_SETADDR: LINE(setaddr, d, s, number, cap); break;
        case CAPCHECK_KIND_ANDPERM: LINE(andperm, d, s, number, cap); break;
        case CAPCHECK_KIND_SEAL: LINE(seal, d, s, other, cap); break;
        default: LINE(unseal, d, s, other, cap);
        }
    c[d] = value;
    pc += 4;
}

static const char *place_name(char text[8], capcheck_place place) {
    snprintf(text, 8, "%s%u", place.kind == CAPCHECK_SPECIAL ? "scr" : "c", (unsigned)place.number);
    return text;
}

/* A result without a step. */
static void derived(capcheck_place target, capcheck_place source, capcheck_cap value) {
    char to[8], from[8];
    if (way == DID || way == WROTE)
        RECORD(wrote, &r, target, source, value);
    else if (way == EVENTS)
        EVENT("\"do\":\"derive\",\"target\":\"%s\",\"source\":\"%s\",\"value\":\"" VALUE "\"}\n", place_name(to, target),
               place_name(from, source), WORD(value));
    else if (way == OWN)
        LINE(derive, target, source, value);
}

/* An integer was written: `li` into a register. */
static void integer(unsigned d, uint64_t value) {
    char text[64];
    snprintf(text, sizeof text, "%s,%llu", names[d] + 1, (big)value);
    print_instruction("li", text);
    if (way == QEMU)
        printf("    Write %s = %016llx\n", names[d] + 1, (big)value);
    c[d].word = capcheck_null();
    c[d].word.low = value;
    c[d].tag = 0;
    if (way == DID || way == WROTE)
        RECORD(overwrote, &r, d, value);
    else if (way == EVENTS)
        EVENT("\"do\":\"integer\",\"target\":\"c%u\",\"number\":\"0x%llx\"}\n", d, (big)value);
    else if (way == OWN)
        LINE(derive, capcheck_c(d), capcheck_c(0), c[d]);
    pc += 4;
}

/* ---- Instructions ---- */

static capcheck_cap typed(capcheck_cap cap, uint32_t type) {
    capcheck_fields fields = capcheck_split(cap.word);
    fields.otype = type;
    cap.word = capcheck_join(fields).word;
    return cap;
}

static capcheck_cap at(capcheck_cap cap, uint64_t address) {
    cap.word.low = address;
    return cap;
}

static void set_address(unsigned d, unsigned s, uint64_t address) {
    capcheck_cap value;
    integer(A5, address);
    value = capcheck_set_addr_clear(c[s], address);
    if (bug == TAG)
        value.tag = c[s].tag;
    did(CAPCHECK_KIND_SETADDR, "csetaddr", d, s, 0, address, "a5", value);
}

static void increment(unsigned d, unsigned s, int64_t by) {
    uint64_t address = c[s].word.low + (uint64_t)by;
    char text[32];
    snprintf(text, sizeof text, "%lld", (long long)by);
    did(CAPCHECK_KIND_SETADDR, "cincoffset", d, s, 0, address, text, bug == ADDRESS ? c[s] : capcheck_set_addr_clear(c[s], address));
}

static void set_bounds(unsigned d, unsigned s, uint64_t length) {
    if (c[s].word.low > UINT64_MAX - 0x10000)
        return; /* a trace doesn't show all bits of what would be made */
    integer(A5, length);
    did(CAPCHECK_KIND_SETBOUNDS, "csetbounds", d, s, 0, length, "a5",
        capcheck_set_bounds_clear(c[s], bug == LONG ? length + 1 : bug == SHORT && length ? length - 1 : length, 0));
}

static void and_permissions(unsigned d, unsigned s, uint64_t mask) {
    integer(A5, mask);
    did(CAPCHECK_KIND_ANDPERM, "candperm", d, s, 0, mask, "a5",
        capcheck_and_perm_clear(c[s], bug == PERMISSION ? mask | CAPCHECK_STORE : mask));
}

static void move(unsigned d, unsigned s) { did(CAPCHECK_KIND_MOVE, "cmove", d, s, 0, 0, "", c[s]); }

static void seal_entry(unsigned d, unsigned s) {
    capcheck_cap value = typed(c[s], CAPCHECK_OTYPE_SENTRY);
    char text[32];
    value.tag = c[s].tag && !capcheck_sealed(c[s].word);
    snprintf(text, sizeof text, "%s,%s", names[d], names[s]);
    print_instruction("csealentry", text);
    print_register(names[d], value);
    derived(capcheck_c(d), capcheck_c(s), value);
    c[d] = value;
    pc += 4;
}

/* CSpecialRW, whose source is c0 if it only reads. */
static void special(unsigned d, unsigned number, const char *name, unsigned s) {
    capcheck_cap read = scr[number], written = c[s];
    capcheck_place source = s != 0 ? capcheck_c(s) : capcheck_nowhere();
    char text[32];
    snprintf(text, sizeof text, "%s,%s,%s", names[d], name, names[s]);
    print_instruction("cspecialrw", text);
    if (d != 0)
        print_register(names[d], read);
    if (s != 0)
        scr[number] = written;
    if (d != 0)
        c[d] = read;
    if (way == DID || way == WROTE)
        RECORD(exchanged, &r, d, source, number, read, written);
    else if (way == EVENTS && s == 0)
        EVENT("\"do\":\"exchange\",\"target\":\"c%u\",\"special\":\"scr%u\",\"value\":\"" VALUE "\"}\n", d, number, WORD(read));
    else if (way == EVENTS && d == 0)
        EVENT("\"do\":\"exchange\",\"target\":\"c0\",\"source\":\"c%u\",\"special\":\"scr%u\",\"special_value\":\"" VALUE "\"}\n",
               s, number, WORD(written));
    else if (way == EVENTS)
        EVENT("\"do\":\"exchange\",\"target\":\"c%u\",\"source\":\"c%u\",\"special\":\"scr%u\",\"value\":\"" VALUE
               "\",\"special_value\":\"" VALUE "\"}\n", d, s, number, WORD(read), WORD(written));
    else if (way == OWN && s == 0)
        LINE(derive, capcheck_c(d), capcheck_scr(number), read);
    else if (way == OWN && d == 0)
        LINE(derive, capcheck_scr(number), capcheck_c(s), written);
    else if (way == OWN)
        LINE(exchange, d, s, number, read, written);
    pc += 4;
}

static capcheck_cap link_to(uint64_t address) { return typed(at(scr[PCC], address), CAPCHECK_OTYPE_SENTRY); }

/* CJAL: a call to an address. */
static void call(uint64_t address) {
    capcheck_cap value = link_to(pc + 4);
    char text[32];
    snprintf(text, sizeof text, "cra,%lld", (long long)(address - pc));
    print_instruction("cjal", text);
    print_register("cra", value);
    derived(capcheck_c(RA), capcheck_scr(PCC), value);
    c[RA] = value;
    pc = address;
}

/* CJALR: a call through a register, or a return, which links nothing. */
static void jump(unsigned d, unsigned s) {
    capcheck_cap value = link_to(pc + 4), entry = typed(c[s], CAPCHECK_OTYPE_UNSEALED);
    char text[32];
    snprintf(text, sizeof text, "%s,%s", names[d], names[s]);
    print_instruction("cjalr", text);
    if (d != 0)
        print_register(names[d], value);
    if (bug == SENTRY && s != RA)
        entry.word.low += 4;
    if (way == DID || way == WROTE)
        RECORD(exchanged, &r, d, capcheck_c(s), PCC, value, entry);
    else if (way == EVENTS) {
        EVENT("\"do\":\"exchange\",\"target\":\"c%u\",\"source\":\"c%u\",", d, s);
        if (d != 0)
            printf("\"value\":\"" VALUE "\",", WORD(value));
        printf("\"special_value\":\"" VALUE "\"}\n", WORD(entry));
    } else if (way == OWN && d == 0)
        LINE(derive, capcheck_scr(PCC), capcheck_c(s), entry);
    else if (way == OWN)
        LINE(exchange, d, s, PCC, value, entry);
    if (d != 0)
        c[d] = value;
    scr[PCC] = entry;
    pc = entry.word.low;
}

/* ECALL, a handler that goes on after it, and MRET. */
static void trap(void) {
    capcheck_cap saved = at(scr[PCC], pc), vector = scr[MTCC];
    print_instruction("ecall", "");
    if (way == QEMU)
        printf("-> Exception #8 vector 0x%016llx fault-addr 0x0000000000000000\n-> Switch to Machine mode\n", (big)vector.word.low);
    if (way == DID || way == WROTE)
        RECORD(trapped, &r, capcheck_scr(MEPCC), saved, MTCC, vector);
    else if (way == EVENTS)
        EVENT("\"do\":\"trap\",\"saved\":\"scr31\",\"saved_value\":\"" VALUE "\",\"vector\":\"scr28\",\"value\":\"" VALUE "\"}\n",
               WORD(saved), WORD(vector));
    else if (way == OWN) {
        LINE(derive, capcheck_scr(MEPCC), capcheck_scr(PCC), saved);
        LINE(derive, capcheck_scr(PCC), capcheck_scr(MTCC), vector);
    }
    scr[MEPCC] = saved;
    scr[PCC] = vector;
    pc = vector.word.low;
    special(TEMP, MEPCC, "mepcc", 0);
    increment(TEMP, TEMP, bug == ADDRESS ? 0 : 4);
    if (bug == ADDRESS)
        c[TEMP].word.low = saved.word.low;
    special(0, MEPCC, "mepcc", TEMP);
    print_instruction("mret", "");
    if (way == DID || way == WROTE)
        RECORD(trapped, &r, capcheck_nowhere(), scr[MEPCC], MEPCC, scr[MEPCC]);
    else if (way == EVENTS)
        EVENT("\"do\":\"return\",\"saved\":\"scr31\",\"value\":\"" VALUE "\"}\n", WORD(scr[MEPCC]));
    else if (way == OWN)
        LINE(derive, capcheck_scr(PCC), capcheck_scr(MEPCC), scr[MEPCC]);
    scr[PCC] = scr[MEPCC];
    pc = scr[PCC].word.low;
}

/* ---- Memory ---- */

static capcheck_cap *register_of(capcheck_place place) { return place.kind == CAPCHECK_SPECIAL ? &scr[place.number] : &c[place.number]; }

/* An access in `own` lines: one through DDC goes through the spare register. */
static unsigned reach(capcheck_place authority, int64_t *offset) {
    if (way != OWN || authority.kind == CAPCHECK_REGISTER)
        return (unsigned)authority.number;
    LINE(derive, capcheck_c(SPARE), authority, at(scr[DDC], scr[DDC].word.low + (uint64_t)*offset));
    *offset = 0;
    return SPARE;
}

static void reached(capcheck_place authority) {
    if (way == OWN && authority.kind == CAPCHECK_SPECIAL)
        LINE(drop, capcheck_c(SPARE));
}

static void print_access(const char *name, unsigned first, capcheck_place authority, int64_t offset) {
    char text[64];
    if (authority.kind == CAPCHECK_SPECIAL)
        snprintf(text, sizeof text, "%s,0(a5)", names[first] + 1);
    else
        snprintf(text, sizeof text, "%s,%lld(%s)", names[first] + (name[strlen(name) - 1] != 'c'), (long long)offset, names[authority.number]);
    print_instruction(name, text);
}

static bool is_memory(uint64_t address) { return address >= MEM && address < MEM + 16 * GRANULES; }
static uint64_t granule_of(uint64_t address) { return (address - MEM) / 16; }

static void store_cap(unsigned s, unsigned authority, int64_t offset) {
    uint64_t address = c[authority].word.low + (uint64_t)offset;
    if (capcheck_may_store_cap(c[authority], offset, c[s]).refusal != CAPCHECK_NOT_REFUSED || !is_memory(address))
        return;
    memory[granule_of(address)] = c[s].word;
    tags[granule_of(address)] = c[s].tag;
    print_access("csc", s, capcheck_c(authority), offset);
    print_memory("Write", address, c[s]);
    if (way == DID || way == WROTE)
        RECORD(stored_cap, &r, s, capcheck_c(authority), offset);
    else if (way == EVENTS)
        EVENT("\"do\":\"sc\",\"source\":\"c%u\",\"authority\":\"c%u\",\"offset\":%lld}\n", s, authority, (long long)offset);
    else if (way == OWN)
        LINE(sc, s, authority, offset);
    pc += 4;
}

static void load_cap(unsigned d, unsigned authority, int64_t offset) {
    uint64_t address = c[authority].word.low + (uint64_t)offset;
    capcheck_cap stored;
    if (capcheck_may_load_cap(c[authority], offset).refusal != CAPCHECK_NOT_REFUSED || !is_memory(address))
        return;
    stored.word = memory[granule_of(address)];
    stored.tag = tags[granule_of(address)];
    print_access("clc", d, capcheck_c(authority), offset);
    print_memory("Read", address, stored);
    stored = capcheck_loaded(c[authority], stored);
    print_register(names[d], stored);
    if (way == DID || way == WROTE)
        RECORD(loaded_cap, &r, d, capcheck_c(authority), offset, stored);
    else if (way == EVENTS)
        EVENT("\"do\":\"lc\",\"target\":\"c%u\",\"authority\":\"c%u\",\"offset\":%lld,\"value\":\"" VALUE "\"}\n", d, authority,
               (long long)offset, WORD(stored));
    else if (way == OWN)
        LINE(lc, d, authority, offset, stored);
    c[d] = stored;
    pc += 4;
}

/* A load or a store of eight bytes, of an integer register. */
static void access_data(bool is_store, unsigned number, capcheck_place authority, int64_t offset) {
    char line[CAPCHECK_LINE_SIZE], place[8];
    capcheck_cap cap = *register_of(authority);
    uint64_t address = cap.word.low + (uint64_t)offset, value = c[number].word.low, *half;
    capcheck_access may = capcheck_may_store(cap, offset, 8);
    if (!is_memory(address))
        return;
    if (authority.kind == CAPCHECK_REGISTER && (may.refusal != CAPCHECK_NOT_REFUSED || capcheck_may_load(cap, offset, 8).refusal))
        return;
    half = address % 16 == 0 ? &memory[granule_of(address)].low : &memory[granule_of(address)].high;
    if (is_store) {
        *half = address % 16 == 0 ? value : value ^ capcheck_null().high;
        tags[granule_of(address)] &= bug == MEMORY;
    } else
        value = address % 16 == 0 ? *half : *half ^ capcheck_null().high;
    print_access(is_store ? authority.kind == CAPCHECK_SPECIAL ? "sd" : "csd" : authority.kind == CAPCHECK_SPECIAL ? "ld" : "cld", number,
                 authority, offset);
    if (way == QEMU)
        printf("    Memory %s [%016llx] = %016llx\n", is_store ? "Write" : "Read", (big)address, (big)value);
    if ((way == DID || way == WROTE) && is_store)
        RECORD(stored, &r, authority, offset, 8, value);
    else if (way == DID || way == WROTE)
        RECORD(loaded, &r, authority, offset, 8, value);
    else if (way == EVENTS)
        EVENT("\"do\":\"%s\",\"authority\":\"%s\",\"offset\":\"%lld\",\"size\":8,\"number\":\"0x%llx\"}\n", is_store ? "store" : "load",
               place_name(place, authority), (long long)offset, (big)value);
    else if (way == OWN) {
        unsigned by = reach(authority, &offset);
        own(line, is_store ? capcheck_line_store(line, by, offset, 8, value) : capcheck_line_load(line, by, offset, 8, value));
        reached(authority);
    }
    pc += 4;
}

/* ---- The allocator: slots of one size, a quarantine, and a sweep when no slot is left ---- */

static enum { UNUSED, LIVE, FREED } slots[SLOTS];

static void object(bool is_new) {
    if (way == DID || way == WROTE) {
        if (is_new)
            RECORD(object, &r, A0, 0);
        else
            RECORD(freed, &r, A0, 0);
    } else if (way == EVENTS)
        EVENT("\"do\":\"%s\",\"target\":\"c10\"}\n", is_new ? "object" : "free");
    else if (way == OWN && is_new)
        LINE(object, A0, 0);
    else if (way == OWN)
        LINE(free, A0, 0);
}

/* Whether a capability reaches a slot that was freed. */
static bool is_stale(capcheck_cap cap) {
    uint64_t base = capcheck_decode(cap.word).base;
    return cap.tag != 0 && base >= HEAP && base < HEAP + SLOTS * SLOT && slots[(base - HEAP) / SLOT] == FREED;
}

static void sweep(void) {
    uint64_t granule;
    unsigned number;
    bool missed = false;
    for (granule = 0; granule < GRANULES; granule++) {
        capcheck_cap cap;
        cap.word = memory[granule];
        cap.tag = tags[granule];
        if (!is_stale(cap))
            continue;
        if (bug == STALE && !missed) {
            missed = true;
            continue;
        }
        set_address(TEMP, HEAP_CAP, MEM + 16 * granule);
        access_data(true, 0, capcheck_c(TEMP), 0);
    }
    if (is_stale(scr[MSCRATCHC]))
        special(0, MSCRATCHC, "mscratchc", HEAP_CAP);
    for (number = 1; number < 32; number++)
        if (is_stale(c[number]))
            integer(number, 0);
    for (number = 0; number < SLOTS; number++)
        if (slots[number] == FREED)
            slots[number] = UNUSED;
}

/* Puts a new object's capability into ca0; false if there is no room. */
static bool allocate(uint64_t size) {
    unsigned slot;
    for (slot = 0; slot < SLOTS && slots[slot] != UNUSED; slot++)
        ;
    if (slot == SLOTS)
        return false;
    call(MALLOC);
    set_address(A0, HEAP_CAP, HEAP + slot * SLOT);
    set_bounds(A0, A0, size);
    and_permissions(A0, A0, 0x3f);
    jump(0, RA);
    slots[slot] = LIVE;
    object(true);
    return true;
}

static void release(unsigned number) {
    uint64_t base = capcheck_decode(c[number].word).base;
    if (c[number].tag == 0 || capcheck_length(c[number].word).low == 0 || base < HEAP || base >= HEAP + SLOTS * SLOT ||
        capcheck_length(c[number].word).low > SLOT || slots[(base - HEAP) / SLOT] != LIVE)
        return;
    move(A0, number);
    call(FREE);
    object(false);
    slots[(base - HEAP) / SLOT] = FREED;
    integer(A0, 0);
    jump(0, RA);
}

/* ---- The program ---- */

static uint64_t seed;

static unsigned draw(unsigned below) {
    seed = seed * 6364136223846793005u + 1442695040888963407u;
    return (unsigned)(seed >> 33) % below;
}

static void begin(void) {
    size_t i;
    capcheck_wide whole = {1, 0};
    char line[CAPCHECK_LINE_SIZE];
    for (i = 0; i < 32; i++) {
        c[i].word = scr[i].word = capcheck_null();
        c[i].tag = scr[i].tag = 0;
    }
    for (i = 0; i < GRANULES; i++)
        memory[i] = capcheck_null();
    if (way == DID || way == WROTE) {
        RECORD(start, &r, NULL, capcheck_recorder_to_file, stdout, 1);
        r.spare = SPARE;
    } else if (way == OWN) {
        own(line, capcheck_line_run_version(line));
        own(line, capcheck_line_mode(line, 1));
    }
    for (i = 0; i < sizeof roots / sizeof roots[0]; i++) {
        capcheck_cap *root = &scr[roots[i]];
        root->word = capcheck_root(0, whole, CAPCHECK_ALL_PERMISSIONS).word;
        root->tag = 1;
        if (way == DID || way == WROTE)
            RECORD(root, &r, capcheck_scr(roots[i]), root->word);
        else if (way == EVENTS)
            EVENT("\"do\":\"root\",\"place\":\"scr%u\",\"value\":\"" VALUE "\"}\n", roots[i], WORD(*root));
        else if (way == OWN)
            own(line, capcheck_line_root_special(line, roots[i], root->word));
    }
    steps = 0;
}

static void prepare(void) {
    special(HEAP_CAP, DDC, "ddc", 0);
    set_address(TEMP, HEAP_CAP, HANDLER);
    special(0, MTCC, "mtcc", TEMP);
    set_address(ENTRY, HEAP_CAP, FUNCTION);
    seal_entry(ENTRY, ENTRY);
    set_address(SEALER, HEAP_CAP, 5);
    set_address(SP, HEAP_CAP, STACK);
    set_bounds(SP, SP, STACK_SIZE);
}

static void random_step(void) {
    unsigned d = 3 + draw(6), s = 3 + draw(6);
    int64_t slot = 16 * (int64_t)draw(TABLE / 16), entry = TABLE + 16 * (int64_t)draw(SLOTS);
    switch (draw(20)) {
    case 0: case 1: increment(d, s, 8 * (int64_t)draw(16) - 16); break;
    case 2: case 3: set_bounds(d, s, draw(4) ? draw(64) : draw(5000)); break;
    case 4: and_permissions(d, s, draw(2) ? 0x37 : 0x78fff & ~(1u << draw(12))); break;
    case 5: move(d, s); break;
    case 6: store_cap(s, SP, slot); break;
    case 7: /* a spill, data over one half of it, and a load of what is left */
        store_cap(s, SP, slot);
        access_data(true, A5, capcheck_c(SP), slot);
        load_cap(d, SP, slot);
        break;
    case 8: load_cap(d, SP, draw(4) ? entry : slot); break;
    case 9: case 10: access_data(draw(2) != 0, A5, capcheck_c(s), 8 * (int64_t)draw(4)); break;
    case 11: case 12: case 13:
        if (allocate(16 + draw(SLOT - 16))) {
            move(d, A0);
            store_cap(A0, SP, TABLE + (int64_t)(capcheck_decode(c[A0].word).base - HEAP) / SLOT * 16);
        } else
            sweep();
        break;
    case 14: case 15:
        load_cap(9, SP, entry);
        release(9);
        break;
    case 16:
        did(CAPCHECK_KIND_SEAL, "cseal", d, s, SEALER, 0, "cs5", capcheck_seal_clear(c[s], c[SEALER]));
        did(CAPCHECK_KIND_UNSEAL, "cunseal", d, d, SEALER, 0, "cs5", capcheck_unseal_clear(c[d], c[SEALER]));
        break;
    case 17:
        jump(RA, ENTRY);
        increment(d, s, 16);
        jump(0, RA);
        break;
    case 18:
        if (draw(2))
            trap();
        else
            special(d, MSCRATCHC, "mscratchc", s);
        break;
    default:
        if (draw(3) == 0) {
            integer(A5, STACK + 8 * draw(64));
            access_data(draw(2) != 0, A1, capcheck_scr(DDC), (int64_t)c[A5].word.low);
        } else
            set_address(d, s, draw(2) ? c[s].word.low + draw(64) : 0x8000 + draw(0x400000));
    }
}

static int of(const char *const *words, const char *word) {
    int found;
    for (found = 0; words[found] != NULL; found++)
        if (strcmp(words[found], word) == 0)
            return found;
    fprintf(stderr, "usage: machine own|did|wrote|events|qemu SEED [long|short|permission|tag|address|sentry|memory|stale]\n");
    exit(2);
}

int main(int argc, char **argv) {
    static const char *const ways[] = {"own", "did", "wrote", "events", "qemu", NULL};
    static const char *const bugs[] = {"none", "long", "short", "permission", "tag", "address", "sentry", "memory", "stale", NULL};
    const char *count = getenv("STEPS");
    char line[CAPCHECK_LINE_SIZE];
    unsigned long left = count != NULL ? strtoul(count, NULL, 10) : 60, done;
    uint64_t first, begun;
    way = (enum way)of(ways, argc > 1 ? argv[1] : "");
    seed = argc > 2 ? strtoull(argv[2], NULL, 10) : 1;
    begin();
    prepare();
    bug = (enum bug)of(bugs, argc > 3 ? argv[3] : "none");
    first = seed;
    begun = pc;
    for (done = 0; done < left; done++) {
        if (done > 0 && done % 1000 == 0) {
            print_instruction("j", "loop");
            seed = first;
            pc = begun;
        }
        random_step();
    }
    integer(A5, 0);
    if (way == DID || way == WROTE)
        RECORD(end, &r);
    else if (way == OWN) {
        uint64_t total = steps;
        own(line, capcheck_line_end(line, total));
    }
    return fflush(stdout) == 0 ? 0 : 2;
}
