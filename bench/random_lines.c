/*
 * random_lines.c: writes a log of version 2 whose lines are drawn at random: all twelve kinds of step, in strict or in clear
 * mode, over roots in registers and in memory. About two logs in three have a line near the end that is drawn without
 * regard to the rules, or in which a byte is replaced; what follows it is drawn on as if nothing had happened.
 *
 *     random_lines LINES SEED
 *
 * The results that lines record are those of libcapcheck_c.
 */
#include <capcheck.h>
#include <stdio.h>
#include <stdlib.h>
#include <string.h>

enum { GRANULES = 4096, TYPES = 64 };

static capcheck_cap registers[32], memory[GRANULES];
static uint8_t bytes[GRANULES][16];
static uint64_t state, base;
static bool clear, is_wild;

static uint64_t draw(void) {
    state ^= state << 13, state ^= state >> 7, state ^= state << 17;
    return state * 0x2545f4914f6cdd1d;
}

static uint64_t below(uint64_t limit) {
    return (draw() >> 11) % limit;
}

/* A number whose length in bits is drawn first. */
static uint64_t number(void) {
    return draw() >> below(64);
}


/* A register, mostly one of those that hold roots. */
static uint64_t any(void) {
    return below(4) ? 1 + below(7) : below(32);
}

static bool in_memory(uint64_t address) {
    return address - base < 16 * GRANULES;
}

static size_t granule_of(uint64_t address) {
    return (size_t)((address - base) / 16);
}

/* A step that makes a capability in a register from another one. */
static size_t operation(char *line) {
    uint64_t target = 1 + below(31), source = any(), authority = below(8) ? 2 + below(3) : below(32);
    capcheck_cap from = registers[source], by = registers[authority];
    unsigned kind = (unsigned)below(8);
    uint64_t n = kind == 3 && below(4) ? base + below(16 * GRANULES) : kind == 2 && below(4) ? ~(1ull << below(64)) : number();
    if (kind >= 6 && below(2))
        from = registers[source = 1 + below(31)];
    capcheck_made made = {from, 0};
    capcheck_cap cleared = from;
    switch (kind) {
    case 1: made.cap = cleared = capcheck_clear_tag(from); break;
    case 2: made = capcheck_and_perm(from, n), cleared = capcheck_and_perm_clear(from, n); break;
    case 3: made = capcheck_set_addr(from, n), cleared = capcheck_set_addr_clear(from, n); break;
    case 4: made = capcheck_set_bounds(from, n, 0), cleared = capcheck_set_bounds_clear(from, n, 0); break;
    case 5: made = capcheck_set_bounds(from, n, 1), cleared = capcheck_set_bounds_clear(from, n, 1); break;
    case 6: made = capcheck_seal(from, by), cleared = capcheck_seal_clear(from, by); break;
    case 7: made = capcheck_unseal(from, by), cleared = capcheck_unseal_clear(from, by); break;
    }
    if (made.refusal && !clear && !is_wild)
        return 0;
    capcheck_cap result = clear ? cleared : made.cap;
    /* The registers that hold roots keep them, mostly. */
    if (target < 8 && below(4096))
        target += 8;
    switch (kind) {
    case 0: return registers[target] = result, capcheck_line_move(line, target, source, result);
    case 1: return registers[target] = result, capcheck_line_cleartag(line, target, source, result);
    case 2: return registers[target] = result, capcheck_line_andperm(line, target, source, n, result);
    case 3: return registers[target] = result, capcheck_line_setaddr(line, target, source, n, result);
    case 4: return registers[target] = result, capcheck_line_setbounds(line, target, source, n, result);
    case 5: return registers[target] = result, capcheck_line_setboundsexact(line, target, source, n, result);
    case 6: return registers[target] = result, capcheck_line_seal(line, target, source, authority, result);
    default: return registers[target] = result, capcheck_line_unseal(line, target, source, authority, result);
    }
}

/* An access to memory. */
static size_t access(char *line) {
    uint64_t authority = below(4) ? 5 + below(3) : below(32), size = 1ull << below(4), other = 1 + below(31);
    unsigned kind = (unsigned)below(4);
    int64_t offset = below(3) ? (int64_t)(16 * below(8)) : (int64_t)below(4096) - 2048;
    capcheck_cap by = registers[authority];
    capcheck_access found = kind == 0   ? capcheck_may_load_cap(by, offset)
                            : kind == 1 ? capcheck_may_store_cap(by, offset, registers[other])
                            : kind == 2 ? capcheck_may_load(by, offset, size)
                                        : capcheck_may_store(by, offset, size);
    if ((found.refusal || !in_memory(found.address)) && !is_wild)
        return 0;
    size_t granule = in_memory(found.address) ? granule_of(found.address) : 0, at = found.address % 16;
    uint64_t value = size == 8 ? number() : number() & ((1ull << 8 * size) - 1);
    if (at + size > 16)
        at = 0;
    switch (kind) {
    case 0:
        if (other < 8 && below(4096))
            other += 8;
        registers[other] = capcheck_loaded(by, (capcheck_cap){capcheck_from_memory(bytes[granule]), memory[granule].tag});
        return capcheck_line_lc(line, other, authority, offset, registers[other]);
    case 1:
        memory[granule].tag = registers[other].tag;
        capcheck_to_memory(registers[other].word, bytes[granule]);
        return capcheck_line_sc(line, other, authority, offset);
    case 2:
        value = 0;
        memcpy(&value, bytes[granule] + at, size);
        return capcheck_line_load(line, authority, offset, size, value);
    default:
        memory[granule].tag = 0;
        memcpy(bytes[granule] + at, &value, size);
        return capcheck_line_store(line, authority, offset, size, value);
    }
}

static void put(const char *line, size_t length) {
    fwrite(line, 1, length, stdout);
}

int main(int count, char **words) {
    if (count != 3)
        return fputs("random_lines LINES SEED\n", stderr), 2;
    char line[CAPCHECK_LINE_SIZE];
    uint64_t lines = strtoull(words[1], 0, 10);
    state = strtoull(words[2], 0, 10) * 0x9e3779b97f4a7c15 | 1;
    for (int i = 0; i < 8; i++)
        draw();
    clear = below(2);
    base = below(2) ? 16 * below(1ull << 20) : 16 * (draw() >> 9);
    for (int i = 0; i < 32; i++)
        registers[i] = (capcheck_cap)CAPCHECK_NULL;
    for (int i = 0; i < GRANULES; i++)
        memory[i] = (capcheck_cap)CAPCHECK_NULL;
    put(line, capcheck_line_version(line, 2));
    put(line, capcheck_line_mode(line, clear));
    for (uint64_t target = 1; target < 8; target++) {
        capcheck_wide all = {1, 0};
        capcheck_optional_word root = target == 2   ? capcheck_root(0, (capcheck_wide){0, 4096}, 0xfff)
                                      : target == 3 ? capcheck_root(TYPES, (capcheck_wide){0, TYPES}, 0x600)
                                      : target < 6  ? capcheck_root(0, all, CAPCHECK_ALL_PERMISSIONS)
                                                    : capcheck_root(base, (capcheck_wide){0, 16 * GRANULES}, CAPCHECK_ALL_PERMISSIONS);
        if (!root.present)
            continue;
        registers[target] = (capcheck_cap){root.word, 1};
        if (target == 4)
            registers[target].word.low = 4 + below(TYPES);
        if (target == 5)
            registers[target].word.low = base;
        put(line, capcheck_line_root(line, target, registers[target].word));
    }
    uint64_t steps = 0, wild = below(3) ? lines - 1 - below(lines / 8 + 1) : lines;
    while (steps < lines) {
        is_wild = steps >= wild && steps < wild + 4;
        size_t length = below(3) ? access(line) : operation(line);
        if (!length)
            continue;
        if (is_wild && below(2))
            line[below(length)] = below(4) ? "0123456789abcdefcg =-\n"[below(22)] : (char)below(256);
        put(line, length);
        steps++;
    }
    put(line, capcheck_line_end(line, lines + (below(64) == 0)));
    return 0;
}
