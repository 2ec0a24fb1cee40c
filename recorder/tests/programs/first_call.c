/* What is written before a function is called for the first time comes before the store that publishes it. */
#include <fcntl.h>
#include <pthread.h>
#include <sched.h>
#include <stdatomic.h>

enum { COUNT = 8 };
static long data[COUNT], sum;
static atomic_long ready, stored;

static void *make(void *x) {
    for (int k = 0; k < COUNT; k++) data[k] = k;
    fcntl(0, F_GETFD);
    atomic_store_explicit(&ready, 1, memory_order_release);
    atomic_store_explicit(&stored, 1, memory_order_relaxed);
    return 0;
}

int main(void) {
    pthread_t maker;
    pthread_create(&maker, 0, make, 0);
    while (!atomic_load_explicit(&stored, memory_order_relaxed)) sched_yield();
    while (!atomic_load_explicit(&ready, memory_order_acquire)) sched_yield();
    for (int k = 0; k < COUNT; k++) sum += data[k];
    pthread_join(maker, 0);
    return sum != COUNT * (COUNT - 1) / 2;
}
