/*
 * How the module of run logs and allocators' logs allocates: the three functions through which a proved crate gets and
 * frees memory, over the module's own memory. build.sh links this file to the module. It is not proved.
 *
 * A block is of one of several sizes, four between a power of two and the next. A freed block is kept in a list of its
 * size, from which the next one of that size is taken. If memory can't grow, the pointer still isn't null, and is never
 * followed.
 */
typedef __SIZE_TYPE__ size_t;

typedef struct tried {
    _Bool ok;
    void *block;
} tried;

tried rattle_alloc(size_t size, size_t alignment);
tried rattle_realloc(void *block, size_t kept, size_t size, size_t alignment);
void rattle_dealloc(void *block);

enum { UNIT = 16, PAGE = 65536, PAGES_AT_ONCE = 16, KINDS = 128 };
static const size_t GREATEST = (size_t)1 << 31;

/* What stands in front of a block: its size by number, and in the list of freed blocks the next one. */
typedef struct head {
    size_t kind;
    struct head *next;
} head;

static head *freed[KINDS];
static char *fresh, *end;

/* The first kind of block with at least so many units. */
static size_t kind_of(size_t units) {
    if (units < 8)
        return units;
    size_t cut = 61 - (size_t)__builtin_clzl(units);
    return 4 * cut + ((units + ((size_t)1 << cut) - 1) >> cut);
}

static size_t units_of(size_t kind) {
    return kind < 8 ? kind : (4 + kind % 4) << (kind / 4 - 1);
}

/* Bytes that no block had, or null. The page may have taken memory between two calls. */
static head *more(size_t bytes) {
    if (bytes > (size_t)(end - fresh)) {
        size_t pages = bytes / PAGE + PAGES_AT_ONCE;
        size_t before = __builtin_wasm_memory_grow(0, pages);
        if (before >= (size_t)1 << 16)
            return 0;
        if (end != (char *)(before * PAGE))
            fresh = (char *)(before * PAGE);
        end = (char *)((before + pages) * PAGE);
    }
    head *made = (head *)fresh;
    fresh += bytes;
    return made;
}

tried rattle_alloc(size_t size, size_t alignment) {
    tried made = {0, (void *)alignment};
    if (size > GREATEST)
        return made;
    size_t kind = kind_of((size + UNIT - 1) / UNIT + 1);
    head *block = freed[kind];
    if (block)
        freed[kind] = block->next;
    else
        block = more(units_of(kind) * UNIT);
    if (!block)
        return made;
    block->kind = kind;
    made.ok = 1;
    made.block = block + 1;
    return made;
}

void rattle_dealloc(void *block) {
    head *at = (head *)block - 1;
    at->next = freed[at->kind];
    freed[at->kind] = at;
}

tried rattle_realloc(void *block, size_t kept, size_t size, size_t alignment) {
    head *at = (head *)block - 1;
    if (size <= (units_of(at->kind) - 1) * UNIT && size <= GREATEST) {
        tried same = {1, block};
        return same;
    }
    tried made = rattle_alloc(size, alignment);
    if (made.ok) {
        __builtin_memcpy(made.block, block, kept);
        rattle_dealloc(block);
    }
    return made;
}
