/* Memory for what the recorder keeps of OpenMP, or of a fiber, is refused: the block number REFUSED. */
#include <pthread.h>
#include <stdio.h>
#include <stdlib.h>
#include <string.h>

void *__tsan_create_fiber(unsigned), __tsan_switch_to_fiber(void *, unsigned), __tsan_destroy_fiber(void *);
void *__tsan_get_current_fiber(void);
void *__libc_memalign(size_t, size_t);
static _Atomic int left = -1;
static int is_refused(void) { return left >= 0 && !left--; }
void *__libc_malloc(size_t n) { return is_refused() ? 0 : __libc_memalign(16, n); }
void *__libc_calloc(size_t k, size_t n) {
    void *p = __libc_malloc(k * n);
    return p ? memset(p, 0, k * n) : 0;
}

/* It has begun, for which the C library takes memory, before any is refused. */
static pthread_barrier_t begun;
static void *idle(void *x) {
    pthread_barrier_wait(&begun);
    return x;
}

int main(int count, char **words) {
    long sum = 0, done = 0;
    pthread_t t;
#pragma omp parallel num_threads(3)                          /* has the library start its threads */
    sum = 0;
    pthread_barrier_init(&begun, 0, 2);
    pthread_create(&t, 0, idle, 0);
    pthread_barrier_wait(&begun);
    left = atoi(getenv("REFUSED"));
    if (count > 1) {
        void *here = __tsan_get_current_fiber(), *fiber = __tsan_create_fiber(0);
        left = -1;
        __tsan_switch_to_fiber(fiber, 0);
        __tsan_switch_to_fiber(here, 0);
        __tsan_destroy_fiber(fiber);
        sum = 300, done = 12;
    } else
#pragma omp parallel num_threads(3) reduction(+ : sum)
    {
#pragma omp for
        for (int k = 0; k < 300; k++) sum++;
#pragma omp single
        for (int k = 0; k < 12; k++)
#pragma omp task shared(done)
#pragma omp atomic
            done++;
    }
    left = -1;
    pthread_join(t, 0);
    printf("%ld %ld\n", sum, done);
    return 0;
}
