/* Thousands of threads that want to run at once, after a barrier. */
#include <pthread.h>
#include <stdlib.h>

enum { THREADS = 3000, STACK = 65536 };
static pthread_barrier_t barrier;
static int count;

static void *work(void *x) {
    count++;
    pthread_barrier_wait(&barrier);
    return x;
}

int main(void) {
    static pthread_t threads[THREADS];
    pthread_attr_t small;
    pthread_attr_init(&small);
    pthread_attr_setstacksize(&small, STACK);
    pthread_barrier_init(&barrier, 0, THREADS + 1);
    for (int i = 0; i < THREADS; i++)
        if (pthread_create(&threads[i], &small, work, 0)) exit(1);
    pthread_barrier_wait(&barrier);
    for (int i = 0; i < THREADS; i++) pthread_join(threads[i], 0);
    return 0;
}
