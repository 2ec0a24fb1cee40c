/* A worker writes its job's number and then a relaxed heartbeat; the monitor trusts the beat. */
#include <pthread.h>
#include <stdatomic.h>
#include <stdio.h>
#include <unistd.h>
static struct { long job; atomic_long beat; pthread_mutex_t lock; } worker = {.lock = PTHREAD_MUTEX_INITIALIZER};
static void set_job(long n) {
#ifdef FIXED
    pthread_mutex_lock(&worker.lock);
    worker.job = n;
    pthread_mutex_unlock(&worker.lock);
#else
    worker.job = n;
#endif
}
static long get_job(void) {
    long n;
#ifdef FIXED
    pthread_mutex_lock(&worker.lock);
    n = worker.job;
    pthread_mutex_unlock(&worker.lock);
#else
    n = worker.job;
#endif
    return n;
}
static void *work(void *u) {
    for (long n = 1; n <= 40; n++) {
        set_job(n);
        atomic_store_explicit(&worker.beat, n, memory_order_relaxed);
    }
    return u;
}
int main(void) {
    pthread_t t;
    pthread_create(&t, 0, work, 0);
    usleep(20000);
    for (int i = 0; i < 5; i++) {
        if (atomic_load_explicit(&worker.beat, memory_order_relaxed)) printf("job %ld\n", get_job());
    }
    return pthread_join(t, 0);
}
