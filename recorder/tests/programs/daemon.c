/* A daemon: a process made by fork lives on and starts the threads. Before that it allocates, so that its record begins. */
#include <pthread.h>
#include <stdlib.h>
#include <unistd.h>
static long *count;
static void *work(void *unused) {
    for (int i = 0; i < 10; i++) ++*count; /* RACE, in the daemon */
    return 0;
}
int main(void) {
    if (fork()) exit(0);
    setsid();
    if (chdir("/")) return 1;
    pthread_t a, b;
    count = calloc(1, sizeof *count);
    pthread_create(&a, 0, work, 0);
    pthread_create(&b, 0, work, 0);
    pthread_join(a, 0);
    pthread_join(b, 0);
    if (write(1, "done\n", 5) != 5) return 1;
    return 0;
}
