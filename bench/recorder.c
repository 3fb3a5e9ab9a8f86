/*
 * Records 40,000 instructions of one kind over mixed values, into nothing. bench/recorder.sh counts the instructions.
 *
 *     recorder KIND COUNT
 */
#include <capcheck_recorder.h>

#include <stdlib.h>
#include <string.h>

static uint64_t state = 1;

static uint64_t drawn(void) {
    state ^= state << 13;
    state ^= state >> 7;
    state ^= state << 17;
    return state;
}

static bool nothing(void *to, const char *line, size_t length) {
    (void)to;
    (void)line;
    return length != 0;
}

static bool record(capcheck_recorder *r, const char *kind) {
    uint64_t target = 1 + drawn() % 29, source = drawn() % 30, number = drawn() >> drawn() % 64;
    int64_t offset = (int64_t)(drawn() % 4096) - 2048;
    capcheck_cap cap;
    cap.word.high = drawn();
    cap.word.low = drawn();
    cap.tag = drawn() % 2;
    if (strcmp(kind, "did") == 0)
        return capcheck_recorder_did(r, CAPCHECK_KIND_SETADDR, target, source, 0, number, cap);
    if (strcmp(kind, "wrote") == 0)
        return capcheck_recorder_wrote(r, capcheck_c(target), capcheck_c(source), cap);
    if (strcmp(kind, "overwrote") == 0)
        return capcheck_recorder_overwrote(r, target, number);
    if (strcmp(kind, "loaded") == 0)
        return capcheck_recorder_loaded(r, capcheck_c(source), offset, 8, number);
    if (strcmp(kind, "stored") == 0)
        return capcheck_recorder_stored(r, capcheck_c(source), offset, 8, number);
    if (strcmp(kind, "loaded_cap") == 0)
        return capcheck_recorder_loaded_cap(r, target, capcheck_c(source), offset, cap);
    return capcheck_recorder_loaded(r, capcheck_scr(1), (int64_t)number, 8, number);
}

int main(int argc, char **argv) {
    static capcheck_recorder r;
    long count = argc == 3 ? strtol(argv[2], NULL, 10) : 0, i;
    bool goes_on = argc == 3 && capcheck_recorder_start(&r, NULL, nothing, NULL, 1);
    r.spare = 30;
    for (i = 0; i < count && goes_on; i++)
        goes_on = record(&r, argv[1]);
    return goes_on ? 0 : 1;
}
