/* Records what a program does with the objects of its allocator, as a log of capabilities for `capcheck judge`: a preload.
 *
 *   cc -O2 -fno-builtin -fno-tree-loop-distribute-patterns -shared -fPIC -IINCLUDE -o objects.so objects.c LIB/libcapcheck_c.a -ldl -pthread
 *   CAP_LOGS=FOLDER LD_PRELOAD=$PWD/objects.so PROGRAM
 *
 * writes FOLDER/NAME.PID.log; if CAP_LOGS is a pipe, the log goes there, and the programs that PROGRAM starts aren't recorded.
 * When the log ends, a line on standard error says what is in it, and why it ended early if it did. c1 is the root, the whole
 * address space. c2 to c29 hold capabilities of objects, each derived from c1 with the object's address and length, in a
 * register chosen by the address; one that its register doesn't hold is derived anew. memcpy, memmove, memset, calloc and
 * realloc are recorded as accesses to the first and the last byte that they reach, through the object at whose bytes they begin
 * (by c30). A value that is loaded is first stored through c31: the program and the kernel wrote it unseen. A child that doesn't
 * call exec isn't recorded. */
#define RECORDER "objects"
#include "../preload.h"
#include <capcheck.h>
#include <ctype.h>
#include <pthread.h>
#include <signal.h>
#include <sys/mman.h>
#include <sys/stat.h>
#include <sys/syscall.h>
#include <time.h>

#ifndef NODES
#define NODES (1 << 22) /* one more than the objects that may live at once */
#endif
enum { ROOT = 1, FIRST = 2, SLOTS = 28, REACHING = 30, KERNEL = 31 };

/* ---- The objects, in a treap by address ---- */

typedef struct node {
    uintptr_t base;
    size_t length;
    unsigned left, right, weight;
} node;
static node *nodes; /* node 0 is none */
static unsigned made, freed, top;
static const char *limit; /* what the recorder reached */

static void split(unsigned at, uintptr_t base, unsigned *below, unsigned *above) {
    if (at == 0) *below = *above = 0;
    else if (nodes[at].base < base) { split(nodes[at].right, base, &nodes[at].right, above); *below = at; }
    else { split(nodes[at].left, base, below, &nodes[at].left); *above = at; }
}
static unsigned merged(unsigned below, unsigned above) {
    if (below == 0 || above == 0) return below + above;
    if (nodes[below].weight > nodes[above].weight) { nodes[below].right = merged(nodes[below].right, above); return below; }
    nodes[above].left = merged(below, nodes[above].left);
    return above;
}
static size_t drop(uintptr_t base) { /* forgets the object at an address: its length */
    unsigned below, at, above;
    split(top, base, &below, &at);
    split(at, base + 1, &at, &above);
    top = merged(below, above);
    if (at == 0) return 0;
    nodes[at].left = freed;
    freed = at;
    return nodes[at].length;
}
static void keep(uintptr_t base, size_t length) {
    unsigned below, above, at = freed;
    drop(base);
    if (at) freed = nodes[at].left;
    else if (made + 1 < NODES) at = ++made;
    else { limit = "more objects live at once than it has room for"; return; }
    nodes[at] = (node){base, length, 0, 0, (unsigned)(base * UINT64_C(0x9e3779b97f4a7c15) >> 32)};
    split(top, base, &below, &above);
    top = merged(merged(below, at), above);
}
static node *holding(uintptr_t address) { /* the object in which an address lies */
    node *found = NULL;
    for (unsigned at = top; at;) {
        if (nodes[at].base <= address) { found = nodes + at; at = nodes[at].right; }
        else at = nodes[at].left;
    }
    return found && address - found->base < found->length ? found : NULL;
}

/* ---- The log ---- */

static pthread_mutex_t lock = PTHREAD_MUTEX_INITIALIZER;
static __thread int depth __attribute__((tls_model("initial-exec"))); /* what the recorder calls isn't the program's */
static int file = -1, owner;
static char path[4096], text[1 << 16];
static size_t used;
static uint64_t steps, objects, accesses, most = 200000;
static const char *fault; /* why the log can't be written */
static capcheck_cap root, held[SLOTS];
static uintptr_t bases[SLOTS];
static size_t lengths[SLOTS];

static void flush(void) { /* a pipe without a reader ends the log, and not the program */
    sigset_t pipe_signal, before;
    sigemptyset(&pipe_signal);
    sigaddset(&pipe_signal, SIGPIPE);
    pthread_sigmask(SIG_BLOCK, &pipe_signal, &before);
    for (size_t at = 0; at < used && !fault;) {
        ssize_t count = write(file, text + at, used - at);
        if (count > 0) at += (size_t)count;
        else if (errno != EINTR) {
            fault = errno == EPIPE ? "the pipe has no reader" : reason();
            if (errno == EPIPE) sigtimedwait(&pipe_signal, NULL, &(struct timespec){0, 0});
        }
    }
    used = 0;
    pthread_sigmask(SIG_SETMASK, &before, NULL);
}
static void put(size_t length) {
    used += length;
    if (used > sizeof text - CAPCHECK_LINE_SIZE) flush();
}
#define STEP(kind, ...) (put(capcheck_line_##kind(text + used, __VA_ARGS__)), steps++)
static void finish_log(void) {
    if (file < 0 || getpid() != owner) return;
    if (objects) {
        put(capcheck_line_end(text + used, steps));
        flush();
        SAY("%llu objects, %llu accesses, %s%s%s", (unsigned long long)objects, (unsigned long long)accesses, path,
            fault || limit ? "; ended early: " : "", fault ? fault : limit ? limit : "");
    } else { /* a log without objects would be accepted */
        struct stat status;
        SAY("no malloc of the C library was called, and %s has its own or needs none: nothing is recorded", program_invocation_short_name);
        if (fstat(file, &status) == 0 && S_ISREG(status.st_mode)) unlink(path);
    }
    close(file);
    file = -1;
}

static unsigned derived(const node *object) { /* the register with an object's capability */
    unsigned slot = object->base / 16 % SLOTS;
    if (!held[slot].tag || bases[slot] != object->base || lengths[slot] != object->length) {
        capcheck_cap at = capcheck_set_addr(root, object->base).cap;
        STEP(setaddr, FIRST + slot, ROOT, object->base, at);
        held[slot] = capcheck_set_bounds(at, object->length, 0).cap;
        STEP(setbounds, FIRST + slot, FIRST + slot, object->length, held[slot]);
        bases[slot] = object->base;
        lengths[slot] = object->length;
    }
    return FIRST + slot;
}
static void one_byte(const node *object, uintptr_t address, uint8_t value, int is_store) {
    unsigned number = derived(object);
    capcheck_cap reaching = held[number - FIRST];
    reaching.word.low = address; /* this is what the program's pointer does; whether it may, the judge says */
    if (!is_store) {
        STEP(setaddr, KERNEL, ROOT, address, capcheck_set_addr(root, address).cap);
        STEP(store, KERNEL, 0, 1, value);
    }
    STEP(setaddr, REACHING, number, address, reaching);
    if (is_store) STEP(store, REACHING, 0, 1, value);
    else STEP(load, REACHING, 0, 1, value);
    if (++accesses == most) limit = "CAP_MOST permits no more accesses";
    if (fault || limit) finish_log();
}
static void accessed(const void *start, size_t count, const uint8_t *values, int is_store) {
    node *object = file >= 0 && count && getpid() == owner ? holding((uintptr_t)start) : NULL;
    if (!object) return;
    one_byte(object, (uintptr_t)start, values[0], is_store);
    if (file >= 0 && count > 1) one_byte(object, (uintptr_t)start + count - 1, values[count - 1], is_store);
}

static int is_count(const char *given, uint64_t *count) { /* whether a text is a number from 1 on */
    char *end;
    errno = 0;
    *count = strtoull(given, &end, 10);
    return isdigit((unsigned char)*given) && *end == 0 && errno == 0 && *count > 0;
}
static void begin(void) {
    struct stat status;
    const char *place = place_of("CAP_LOGS"), *count = getenv("CAP_MOST");
    if (!place) return;
    if (count && *count && !is_count(count, &most)) { SAY("CAP_MOST is %s, and no number from 1 on: nothing is recorded", count); return; }
    if (*place == '|') { SAY("%s has the log of the program that started %s: nothing is recorded", place + 1, program_invocation_short_name); return; }
    name_absolutely("CAP_LOGS");
    place = getenv("CAP_LOGS");
    int is_folder = stat(place, &status) != 0 || S_ISDIR(status.st_mode);
    if (is_folder) snprintf(path, sizeof path, "%s/%s.%d.log", place, program_invocation_short_name, getpid());
    else snprintf(path, sizeof path, "%s", place);
    int opened = open(path, O_WRONLY | O_CREAT | O_TRUNC | O_CLOEXEC, 0644);
    if (opened < 0) { SAY("cannot write %s: %s: nothing is recorded", path, reason()); return; }
    nodes = mmap(NULL, sizeof(node) * NODES, PROT_READ | PROT_WRITE, MAP_PRIVATE | MAP_ANONYMOUS | MAP_NORESERVE, -1, 0);
    if (nodes == MAP_FAILED) { SAY("no memory for %d objects: nothing is recorded", NODES); return; }
    if (!is_folder) { /* one log fits in a pipe or a file: what this program starts is told so */
        char taken[4200];
        snprintf(taken, sizeof taken, "|%s", path);
        change("CAP_LOGS", taken);
    }
    file = fcntl(opened, F_DUPFD_CLOEXEC, 900);
    if (file < 0) file = opened; else close(opened);
    owner = getpid();
    root.word = capcheck_root(0, (capcheck_wide){1, 0}, CAPCHECK_ALL_PERMISSIONS).word;
    root.tag = 1;
    put(capcheck_line_version(text + used, 2));
    put(capcheck_line_mode(text + used, 0));
    put(capcheck_line_root(text + used, ROOT, root.word));
}
/* A child of a program with threads finds no lock held, and isn't recorded. A signal's handler may fork inside the recorder. */
static void before_fork(void) { if (depth == 0) pthread_mutex_lock(&lock); }
static void in_parent(void) { if (depth == 0) pthread_mutex_unlock(&lock); }
static void in_child(void) {
    if (file >= 0) { close(file); close(said_on); }
    file = -1;
    in_parent();
}

/* ---- The calls that it stands before ---- */

static void *(*next_malloc)(size_t), *(*next_calloc)(size_t, size_t), *(*next_realloc)(void *, size_t), (*next_free)(void *);
static void *(*next_memalign)(size_t, size_t), *(*next_memmove)(void *, const void *, size_t), *(*next_memset)(void *, int, size_t);
static char early[1 << 16] __attribute__((aligned(16))); /* for requests before the allocator is known */
static size_t early_filled;

static void start(void) {
    static int started;
    if (started++) return;
    depth++;
    next_memmove = dlsym(RTLD_NEXT, "memmove"); next_memset = dlsym(RTLD_NEXT, "memset");
    next_free = dlsym(RTLD_NEXT, "free"); next_calloc = dlsym(RTLD_NEXT, "calloc"); next_realloc = dlsym(RTLD_NEXT, "realloc");
    next_memalign = dlsym(RTLD_NEXT, "memalign"); next_malloc = dlsym(RTLD_NEXT, "malloc");
    keep_standard_error();
    begin();
    pthread_atfork(before_fork, in_parent, in_child);
    depth--;
}
__attribute__((constructor)) static void at_start(void) { start(); }
__attribute__((destructor)) static void at_end(void) {
    if (depth++ == 0 && file >= 0 && getpid() == owner) { /* a signal's handler may end the program inside the recorder */
        pthread_mutex_lock(&lock); finish_log(); pthread_mutex_unlock(&lock);
    }
    depth--;
}
void _exit(int status) { at_end(); for (;;) syscall(SYS_exit_group, status); }
void _Exit(int status) { _exit(status); }

static int is_early(void *p) { return (char *)p >= early && (char *)p < early + sizeof early; }
static void *give_early(size_t size) {
    early_filled += (size + 15) / 16 * 16;
    return early_filled <= sizeof early ? early + early_filled - (size + 15) / 16 * 16 : NULL;
}
static void lives(void *address, size_t length) {
    if (!address || depth != 1 || file < 0) return;
    pthread_mutex_lock(&lock); keep((uintptr_t)address, length); objects++; if (limit) finish_log(); pthread_mutex_unlock(&lock);
}
#define ASK(p, size, call) start(); if (!next_malloc) return give_early(size); depth++; void *p = call; lives(p, size); depth--; return p
void *malloc(size_t size) { ASK(p, size, next_malloc(size)); }
void *memalign(size_t alignment, size_t size) { ASK(p, size, next_memalign(alignment, size)); }
void *aligned_alloc(size_t alignment, size_t size) { return memalign(alignment, size); }
int posix_memalign(void **out, size_t alignment, size_t size) { return (*out = memalign(alignment, size)) ? 0 : ENOMEM; }
void *valloc(size_t size) { return memalign(sysconf(_SC_PAGESIZE), size); }
void free(void *p) {
    if (!p || is_early(p)) return;
    int error = errno;
    start();
    if (++depth == 1 && file >= 0) { pthread_mutex_lock(&lock); drop((uintptr_t)p); pthread_mutex_unlock(&lock); }
    next_free(p);
    depth--;
    errno = error;
}
#define RECORDED(...) do { int error = errno; if (++depth == 1 && file >= 0) { pthread_mutex_lock(&lock); __VA_ARGS__; \
    pthread_mutex_unlock(&lock); } depth--; errno = error; } while (0)
void *calloc(size_t count, size_t size) {
    start();
    if (!next_malloc) return give_early(count * size);
    depth++;
    void *p = next_calloc(count, size);
    lives(p, count * size);
    depth--;
    if (p) RECORDED(accessed(p, count * size, p, 1));
    return p;
}
void *memset(void *to, int value, size_t count) {
    if (next_memset) next_memset(to, value, count);
    else for (size_t i = 0; i < count; i++) ((char *)to)[i] = (char)value;
    RECORDED(accessed(to, count, to, 1));
    return to;
}
void *memmove(void *to, const void *from, size_t count) {
    RECORDED(accessed(from, count, from, 0));
    if (next_memmove) next_memmove(to, from, count);
    else if (to <= from) for (size_t i = 0; i < count; i++) ((char *)to)[i] = ((const char *)from)[i];
    else for (size_t i = count; i-- > 0;) ((char *)to)[i] = ((const char *)from)[i];
    RECORDED(accessed(to, count, to, 1));
    return to;
}
void *memcpy(void *to, const void *from, size_t count) { return memmove(to, from, count); }
void *__memcpy_chk(void *to, const void *from, size_t count, size_t room) { if (count > room) abort(); return memmove(to, from, count); }
void *__memmove_chk(void *to, const void *from, size_t count, size_t room) { if (count > room) abort(); return memmove(to, from, count); }
void *__memset_chk(void *to, int value, size_t count, size_t room) { if (count > room) abort(); return memset(to, value, count); }
void *realloc(void *old, size_t size) {
    if (!old || is_early(old)) { void *p = malloc(size); return p && old ? memcpy(p, old, size) : p; }
    start();
    int tells = ++depth == 1 && file >= 0;
    if (tells) pthread_mutex_lock(&lock); /* other threads wait: the old address is free before it is forgotten */
    void *p = next_realloc(old, size);
    if (tells && (p || !size)) {
        size_t before = drop((uintptr_t)old);
        if (p) { keep((uintptr_t)p, size); objects++; accessed(p, before < size ? before : size, p, 1); }
    }
    if (tells) pthread_mutex_unlock(&lock);
    depth--;
    return p;
}
