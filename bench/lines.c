/*
 * Writes 40,000 lines of one kind by the library, over mixed values: registers, offsets, sizes, numbers and words are
 * drawn at random. bench/lines.sh counts the instructions.
 *
 *     lines KIND COUNT
 */
#include <capcheck.h>

#include <stdint.h>
#include <stdlib.h>
#include <string.h>

static uint64_t state = 1;

static uint64_t drawn(void) {
    state ^= state << 13;
    state ^= state >> 7;
    state ^= state << 17;
    return state;
}

/* The operands are drawn before they are counted. */
struct operands {
    uint64_t target, source, number, size;
    int64_t offset;
    capcheck_cap cap;
};

static struct operands operands(void) {
    struct operands made;
    made.target = 1 + drawn() % 31;
    made.source = drawn() % 32;
    made.number = drawn() >> drawn() % 64;
    made.size = UINT64_C(1) << drawn() % 4;
    made.offset = (int64_t)(drawn() % 4096) - 2048;
    made.cap.word.high = drawn();
    made.cap.word.low = drawn();
    made.cap.tag = drawn() % 2;
    return made;
}

static capcheck_place register_of(uint64_t number) {
    capcheck_place made;
    made.number = number;
    made.kind = CAPCHECK_REGISTER;
    return made;
}

/* A register or a special register. */
static capcheck_place place_of(const struct operands *it) {
    capcheck_place made = register_of(it->target);
    made.kind = it->source % 2 == 0 ? CAPCHECK_REGISTER : CAPCHECK_SPECIAL;
    return made;
}

static size_t write_line(char *line, const char *kind, const struct operands *it) {
    uint64_t value = it->size == 8 ? it->number : it->number & ((UINT64_C(1) << 8 * it->size) - 1);
    if (strcmp(kind, "move") == 0)
        return capcheck_line_move(line, it->target, it->source, it->cap);
    if (strcmp(kind, "setaddr") == 0)
        return capcheck_line_setaddr(line, it->target, it->source, it->number, it->cap);
    if (strcmp(kind, "setbounds") == 0)
        return capcheck_line_setbounds(line, it->target, it->source, it->number, it->cap);
    if (strcmp(kind, "lc") == 0)
        return capcheck_line_lc(line, it->target, it->source, it->offset, it->cap);
    if (strcmp(kind, "sc") == 0)
        return capcheck_line_sc(line, it->source, it->source, it->offset);
    if (strcmp(kind, "load") == 0)
        return capcheck_line_load(line, it->source, it->offset, it->size, value);
    if (strcmp(kind, "derive") == 0)
        return capcheck_line_derive(line, place_of(it), register_of(it->source), it->cap);
    if (strcmp(kind, "exchange") == 0)
        return capcheck_line_exchange(line, it->target, it->source, it->number % 32, it->cap, it->cap);
    if (strcmp(kind, "invoke") == 0)
        return capcheck_line_invoke(line, it->target, it->source, it->cap.word, it->cap.word);
    if (strcmp(kind, "drop") == 0)
        return capcheck_line_drop(line, place_of(it));
    if (strcmp(kind, "fill") == 0)
        return capcheck_line_fill(line, it->number & ~UINT64_C(15), it->cap.word);
    if (strcmp(kind, "object") == 0)
        return capcheck_line_object(line, it->target, it->source % 2 == 0 ? 0 : it->number >> 32);
    if (strcmp(kind, "free") == 0)
        return it->number >> 32 == 0 ? capcheck_line_free(line, it->target, 0) : capcheck_line_free(line, 0, it->number >> 32);
    return capcheck_line_store(line, it->source, it->offset, it->size, value);
}

int main(int count, char **words) {
    static struct operands all[1024];
    static char line[CAPCHECK_LINE_SIZE];
    size_t written = 0;
    long lines = count > 2 ? atol(words[2]) : 0;
    for (int i = 0; i < 1024; i++)
        all[i] = operands();
    for (long i = 0; i < lines; i++)
        written += write_line(line, words[1], &all[i % 1024]) == 0;
    return written != 0;
}
