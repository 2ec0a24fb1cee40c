/* A handler comes after what was done before it was installed, whichever thread it runs in. What was done later isn't
   ordered by the signal. */
#include <pthread.h>
#include <signal.h>
#include <stdatomic.h>
#include <stdlib.h>
#include <unistd.h>

static atomic_int has_begun, done;     /* they order nothing */
static int before, later;

static void handle(int signal) {
    if (before != 1) abort();
    later++;                           /* RACE */
    atomic_store_explicit(&done, 1, memory_order_relaxed);
}

static void *work(void *unused) {
    atomic_store_explicit(&has_begun, 1, memory_order_relaxed);
    while (!atomic_load_explicit(&done, memory_order_relaxed)) usleep(100);
    return unused;
}

int main(void) {
    pthread_t worker;
    struct sigaction action = {.sa_handler = handle};
    pthread_create(&worker, 0, work, 0);
    while (!atomic_load_explicit(&has_begun, memory_order_relaxed)) usleep(100);
    before = 1;
    sigaction(SIGUSR1, &action, 0);
    later++;                           /* RACE */
    pthread_kill(worker, SIGUSR1);
    pthread_join(worker, 0);
    return 0;
}
