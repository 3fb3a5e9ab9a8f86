/* What both recorders need of their environment, objects/objects.c and allocator/record.c: where the logs go, and what they
 * say on standard error. RECORDER is the name that a message begins with. */
#define _GNU_SOURCE
#include <dlfcn.h>
#include <errno.h>
#include <fcntl.h>
#include <stdio.h>
#include <stdlib.h>
#include <string.h>
#include <unistd.h>

#define SAY(form, ...) dprintf(said_on, RECORDER ": " form "\n", __VA_ARGS__)
static int said_on = 2;

/* Some programs close their standard error before they end: what is said last goes to a copy of it. */
static void keep_standard_error(void) {
    int copy = fcntl(2, F_DUPFD_CLOEXEC, 900);
    if (copy >= 0) said_on = copy;
}

/* What errno means. strerror would take a lock of the C library, which may hold it while it allocates. */
static const char *reason(void) {
    const char *text = strerrordesc_np(errno);
    return text ? text : "unknown error";
}

/* The folder that a variable names: NULL, after a message, if there is none. */
static char *place_of(const char *variable) {
    char *given = getenv(variable);
    if (given && *given) return given;
    SAY("%s is %s: nothing is recorded", variable, given ? "empty" : "not set");
    return NULL;
}

/* Changes a variable for the programs that this one starts. Some programs have a setenv of their own. */
static void change(const char *variable, const char *value) {
    size_t size = strlen(variable);
    char *text;
    for (char **at = environ; at && *at; at++)
        if (strncmp(*at, variable, size) == 0 && (*at)[size] == '=' && asprintf(&text, "%s=%s", variable, value) > 0) *at = text;
}

/* The program may change its folder before it starts another: the names of the logs' folder and of this library are made
 * absolute for that. */
static void name_absolutely(const char *variable) {
    static char logs[4096], own[4096], libraries[8192];
    Dl_info here;
    char *given = getenv("LD_PRELOAD"), *place;
    if (realpath(getenv(variable), logs)) change(variable, logs);
    if (!given || !dladdr(libraries, &here) || !here.dli_fname || !(place = strstr(given, here.dli_fname))) return;
    if (!realpath(here.dli_fname, own) || strlen(given) + strlen(own) >= sizeof libraries) return;
    snprintf(libraries, sizeof libraries, "%.*s%s%s", (int)(place - given), given, own, place + strlen(here.dli_fname));
    change("LD_PRELOAD", libraries);
}
