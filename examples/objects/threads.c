/* Two threads allocate while the program forks children, which allocate too and end. */
#include <pthread.h>
#include <stdlib.h>
#include <sys/wait.h>
#include <unistd.h>

static volatile int ends;

static void *allocates(void *unused) {
    while (!ends) free(malloc(40));
    return unused;
}

int main(void) {
    pthread_t threads[2];
    for (int i = 0; i < 2; i++) pthread_create(threads + i, NULL, allocates, NULL);
    for (int i = 0; i < 100; i++) {
        pid_t child = fork();
        if (child == 0) { free(malloc(100)); _exit(0); }
        waitpid(child, NULL, 0);
    }
    ends = 1;
    for (int i = 0; i < 2; i++) pthread_join(threads[i], NULL);
    return 0;
}
