/*
 * Refuses requests for memory of a program: built as a shared object and preloaded, it answers NULL to the
 * request of the number in the environment's REFUSED, counted from 1, or with a `+` after that number to
 * each from it on, and leaves all others to the C library. At the program's end it writes how many requests
 * were made to the file descriptor of the number in REPORT.
 */
#include <stdlib.h>
#include <unistd.h>

extern void *__libc_malloc(size_t size);
extern void *__libc_realloc(void *old, size_t size);

static long made = 0;
static long refused = 0;
static int all_later = 0;

static int is_refused(void)
{
    if (made == 0) {
        const char *text = getenv("REFUSED");
        char *rest = NULL;
        refused = text ? strtol(text, &rest, 10) : 0;
        all_later = rest && *rest == '+';
    }
    made++;
    return made == refused || (all_later && made > refused);
}

void *malloc(size_t size)
{
    return is_refused() ? NULL : __libc_malloc(size);
}

void *realloc(void *old, size_t size)
{
    return is_refused() ? NULL : __libc_realloc(old, size);
}

__attribute__((destructor)) static void report(void)
{
    const char *to = getenv("REPORT");
    char digits[24];
    size_t at = sizeof digits;
    long left = made;
    do {
        digits[--at] = (char)('0' + left % 10);
        left /= 10;
    } while (left > 0);
    if (!to || write(atoi(to), digits + at, sizeof digits - at) < 0)
        return;
}
