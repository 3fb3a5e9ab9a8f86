/*
 * Judges logs of allocators by the call of capcheck_judge.h, and prints what `capdiag heap` prints of them:
 *
 *     heaps heap [--why] LOG..
 *
 * With --why, it prints what `capdiag heap --report --why` prints. Without words, it tries a room that is too small, and
 * memory that is refused. Status: 0 if each log got a verdict that agrees with its text. It is C and C++.
 */
#include <capcheck_judge.h>

#include <stdio.h>
#include <stdlib.h>
#include <string.h>

static int failures;

static void expect(bool holds, int line) {
    if (!holds) {
        fprintf(stderr, "heaps.c:%d: not as expected\n", line);
        failures++;
    }
}

#define EXPECT(holds) expect((holds), __LINE__)

static char text[1280];

static capcheck_heap_why judged(const char *log, size_t length) {
    return capcheck_heap_judge_why((const uint8_t *)log, length, text, sizeof text);
}

/* Whether the first line of the text says what the numbers of the answer say. */
static bool agrees(capcheck_heap_why why) {
    char line[96];
    int length;
    if (why.answer.state == CAPCHECK_YES)
        length = snprintf(line, sizeof line, "yes %u %llu\n", (unsigned)why.answer.events, (unsigned long long)why.answer.live);
    else
        length = snprintf(line, sizeof line, "no %llu %u ", (unsigned long long)why.answer.line, (unsigned)why.answer.refusal);
    return why.length >= (uint64_t)length && memcmp(line, text, (size_t)length) == 0;
}

static void judge_file(const char *name, bool whole) {
    size_t length = 0, room = 1 << 16, got;
    char *log = (char *)malloc(room);
    FILE *file = fopen(name, "rb");
    capcheck_heap_why why;
    const char *end;
    if (log == NULL || file == NULL)
        exit(3);
    while ((got = fread(log + length, 1, room - length, file)) > 0) {
        length += got;
        if (length == room && (log = (char *)realloc(log, room *= 2)) == NULL)
            exit(3);
    }
    fclose(file);
    why = judged(log, length);
    free(log);
    EXPECT(why.answer.state != CAPCHECK_NO_MEMORY && why.length <= sizeof text && agrees(why));
    end = (const char *)memchr(text, '\n', (size_t)why.length);
    (void)fwrite(text, 1, whole || end == NULL ? (size_t)why.length : (size_t)(end - text) + 1, stdout);
}

#define LOG "heap 1\nroot 0000000000001000 00000000000002000\nmalloc 0000000000001000 0000000000000010\nend 1\n"

/* The length says what is needed, and nothing is written beyond the room. */
static void small_room(void) {
    char small[16];
    capcheck_heap_why why, same;
    memset(small, 'x', sizeof small);
    why = capcheck_heap_judge_why((const uint8_t *)LOG, strlen(LOG), small, 8);
    EXPECT(why.answer.state == CAPCHECK_YES && why.answer.events == 1 && why.answer.live == 1 && why.answer.line == 0);
    EXPECT(why.length > 8 && memcmp(small + 8, "xxxxxxxx", 8) == 0);
    same = judged(LOG, strlen(LOG));
    EXPECT(same.length == why.length && agrees(same));
}

static size_t held, allowed;

static void *take(size_t size) {
    void *block = allowed > 0 ? malloc(size) : NULL;
    allowed -= allowed > 0;
    held += block != NULL;
    return block;
}

static void *again(void *block, size_t size) {
    void *moved = allowed > 0 ? realloc(block, size) : NULL;
    allowed -= allowed > 0;
    return moved;
}

static void give(void *block) {
    held--;
    free(block);
}

/* Where each allocation in turn is refused there is no verdict and no text, and all memory is freed. */
static void refused_memory(void) {
    size_t most;
    capcheck_heap_why why;
    capcheck_judge_memory(take, again, give);
    for (most = 0; most < 100; most++) {
        allowed = most;
        why = judged(LOG, strlen(LOG));
        EXPECT(held == 0);
        if (why.answer.state == CAPCHECK_YES)
            break;
        EXPECT(why.answer.state == CAPCHECK_NO_MEMORY && why.length == 0 && why.answer.line == 0 && why.answer.events == 0);
    }
    EXPECT(most > 0 && most < 100);
    /* A log that is refused before its first object needs no memory. */
    allowed = 0;
    why = judged("heap 2\n", 7);
    EXPECT(why.answer.state == CAPCHECK_NO && why.answer.line == 1 && why.answer.refusal == CAPCHECK_BAD_HEADER);
}

int main(int count, char **words) {
    int i, first = count > 2 && strcmp(words[2], "--why") == 0 ? 3 : 2;
    for (i = first; i < count; i++)
        judge_file(words[i], first == 3);
    if (count == 1) {
        small_room();
        refused_memory();
    }
    return failures == 0 ? 0 : 1;
}
