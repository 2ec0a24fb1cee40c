/* Some of many threads sleep with the turn, in a call that the recorder doesn't see, until the others are
   done: these take the turn over from them. */
#include <pthread.h>
#include <sys/syscall.h>
#include <unistd.h>

enum { SLEEPERS = 8, WORKERS = 40 };
static int pipe_ends[2], done;
static pthread_mutex_t lock = PTHREAD_MUTEX_INITIALIZER;
static pthread_barrier_t barrier;

static void add(void) {
    pthread_mutex_lock(&lock);
    done++;
    pthread_mutex_unlock(&lock);
}

static void *sleeps(void *unused) {
    char byte;
    pthread_barrier_wait(&barrier);
    add();
    if (syscall(SYS_read, pipe_ends[0], &byte, 1) != 1) _exit(2);
    return 0;
}

static void *work(void *unused) {
    pthread_barrier_wait(&barrier);
    for (int k = 0; k < 20; k++) add();
    return 0;
}

int main(void) {
    pthread_t threads[SLEEPERS + WORKERS];
    if (pipe(pipe_ends)) return 1;
    pthread_barrier_init(&barrier, 0, SLEEPERS + WORKERS);
    for (int k = 0; k < SLEEPERS + WORKERS; k++)
        pthread_create(&threads[k], 0, k < SLEEPERS ? sleeps : work, 0);
    for (int k = SLEEPERS; k < SLEEPERS + WORKERS; k++) pthread_join(threads[k], 0);
    for (int k = 0; k < SLEEPERS; k++)
        if (syscall(SYS_write, pipe_ends[1], "c", 1) != 1) return 1;
    for (int k = 0; k < SLEEPERS; k++) pthread_join(threads[k], 0);
    return 0;
}
