/* Values of each kind that gdb/capcheck_gdb.py prints; gdb/values.txt is the session. */
#include <capcheck_recorder.h>

#include <pthread.h>
#include <stdlib.h>
#include <string.h>

/* The struct of cheri-compressed-cap, by its fields. */
typedef struct cc128_cap {
    uint64_t _cr_cursor;
    uint64_t cr_pesbt;
    uint8_t cr_tag;
} cc128_cap;

static capcheck_cap registers[4];
static uint8_t memory[64];
static capcheck_judge judge = CAPCHECK_NO_JUDGE_YET;
static capcheck_recorder recorders[2] = {{.lines = 11}, {.lines = 12, .error = "no 12 12 NotExact"}};

static void set_register(int number, capcheck_made made) {
    if (made.refusal == CAPCHECK_NOT_REFUSED)
        registers[number] = made.cap;
}

/* Structs that have no capability: the second's field has another meaning. */
typedef struct register_file {
    capcheck_cap held[2];
    int more;
} register_file;
typedef struct vector {
    size_t cap;
    size_t size;
} vector;

static int stop(int status) { return status; }

/* An allocator of the program's own, under a lock: in it nothing else may be allocated. */
static pthread_mutex_t lock = PTHREAD_MUTEX_INITIALIZER;
static char heap[1 << 22] __attribute__((aligned(16)));
static size_t used;

static int in_malloc(int status) { return status; }

void *malloc(size_t size) {
    pthread_mutex_lock(&lock);
    void *block = heap + used;
    used += (size + 15) / 16 * 16;
    in_malloc((int)size);
    pthread_mutex_unlock(&lock);
    return block;
}
void *calloc(size_t count, size_t size) { return malloc(count * size); }
void *realloc(void *old, size_t size) {
    void *block = malloc(size);
    return old && block ? memmove(block, old, size) : block;
}
void free(void *block) { (void)block; }

int main(void) {
    capcheck_optional_word root = capcheck_root(0, (capcheck_wide){1, 0}, CAPCHECK_ALL_PERMISSIONS);
    capcheck_optional_word none = capcheck_read_word("", 0);
    registers[1] = (capcheck_cap){root.word, 1};
    set_register(2, capcheck_set_addr(registers[1], 0x1000));
    set_register(2, capcheck_set_bounds(registers[2], 0xfff, 1));
    set_register(2, capcheck_and_perm(registers[2], ~CAPCHECK_EXECUTE));
    registers[3] = capcheck_clear_tag(registers[2]);
    capcheck_to_memory(registers[2].word, memory + 16);

    capcheck_cap *pointer = &registers[2];
    capcheck_bounds bounds = capcheck_decode(registers[2].word);
    capcheck_made made = capcheck_set_bounds(registers[2], 8, 0), refused = capcheck_set_bounds(registers[2], 0x1000, 0);
    capcheck_access access = capcheck_may_load(registers[2], 8, 8), outside = capcheck_may_load(registers[2], -8, 8);
    unsigned __int128 whole = (unsigned __int128)registers[2].word.high << 64 | registers[2].word.low;
    cc128_cap other = {registers[2].word.low, registers[2].word.high, 1};
    const char *log = "capcheck 1\nend 1\n", *text = "load c1 -10 2 = 1234\n";
    capcheck_answer answer = capcheck_judge_bytes((const uint8_t *)log, strlen(log)), unknown = {0};
    capcheck_line line = capcheck_read_line(text, strlen(text)), nothing = capcheck_read_line(text, 4);
    capcheck_rounded rounded = capcheck_round(0x1000, 100001);
    capcheck_range range = capcheck_reach(registers[2].word), every = capcheck_reach(registers[1].word);
    capcheck_fields fields = capcheck_split(registers[2].word);
    capcheck_place place = {3, CAPCHECK_REGISTER}, granule = {0x1010, CAPCHECK_GRANULE}, nowhere = {0, CAPCHECK_NO_PLACE};
    register_file file = {{registers[1], registers[2]}, 5};
    vector sizes = {16, 5};
    char five[5] = "1234";
    void *typeless = memory + 16;
    capcheck_judge closed = CAPCHECK_NO_JUDGE_YET, garbage;
    memset(&garbage, 1, sizeof garbage);
    int state = capcheck_judge_open(&judge) + capcheck_judge_line(&judge, log, 11);
    state += capcheck_judge_line(&judge, "root c1 ffff1ffffc0180040000000000000000\n", 41);
    state += capcheck_judge_store(&judge, 1, 0, 8, 5);
    stop(state + capcheck_judge_setaddr(&judge, 2, 1, 0x1000, registers[1]));
    capcheck_expected expected = capcheck_judge_expected(&judge);
    void *asked = malloc(16);
    stop(asked != NULL);
    state += capcheck_judge_open(&judge) + capcheck_judge_line(&judge, log, 11);
    stop(state + capcheck_judge_line(&judge, "end 1\n", 6));
    capcheck_judge_close(&judge);
    return pointer->tag + bounds.base + made.refusal + refused.refusal + access.refusal + outside.refusal + (int)whole +
           other.cr_tag + answer.state + unknown.state + line.kind + nothing.kind + none.present + rounded.ie + range.every + every.every + fields.ie +
           place.kind + granule.kind + nowhere.kind + file.more + (int)sizes.cap + five[0] + (typeless != NULL) + closed.held + garbage.held + expected.kind != 0;
}
