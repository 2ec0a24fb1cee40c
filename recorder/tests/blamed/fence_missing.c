/* The reader loads relaxed and has its fence with acquire; the writer stores relaxed without one with release. */
#include <pthread.h>
#include <sched.h>
#include <stdatomic.h>
static atomic_int ready;
static int data;
static void *writer(void *u) {
    data = 1;
    atomic_store_explicit(&ready, 1, memory_order_relaxed);
    return u;
}
int main(void) {
    pthread_t t;
    pthread_create(&t, 0, writer, 0);
    while (!atomic_load_explicit(&ready, memory_order_relaxed)) sched_yield();
    atomic_thread_fence(memory_order_acquire);
    int seen = data;
    pthread_join(t, 0);
    return seen == 9;
}
