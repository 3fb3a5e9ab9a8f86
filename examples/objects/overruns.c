/* Clears an object of 20,000 bytes; with any word, also the first granule after its bounds, which are rounded to 20,032. */
#include <stdlib.h>
#include <string.h>

int main(int count, char **words) {
    (void)words;
    char *object = aligned_alloc(64, 20000), *next = malloc(64); /* the overrun destroys what the allocator notes of the next */
    if (!object || !next) return 1;
    volatile size_t length = count > 1 ? 20032 + 16 : 20000;
    memset(object, 0, length);
    return object[0];
}
