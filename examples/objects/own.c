/* A program with an allocator of its own, before which no preload stands. */
#include <stddef.h>
#include <string.h>

static char memory[1 << 20];
static size_t used;

void *malloc(size_t size) {
    used += (size + 15) / 16 * 16;
    return used <= sizeof memory ? memory + used - (size + 15) / 16 * 16 : NULL;
}
void *calloc(size_t count, size_t size) { return malloc(count * size); }
void *realloc(void *old, size_t size) {
    void *object = malloc(size);
    return old && object ? memmove(object, old, size) : object;
}
void free(void *object) { (void)object; }

int main(void) {
    volatile char *object = malloc(40);
    object[0] = 1;
    return 0;
}
