/* The fence with acquire comes after the read that it should order. */
#include <pthread.h>
#include <sched.h>
#include <stdatomic.h>
static atomic_int ready;
static int data;
static void *writer(void *u) {
    data = 1;
    atomic_store_explicit(&ready, 1, memory_order_release);
    return u;
}
int main(void) {
    pthread_t t;
    pthread_create(&t, 0, writer, 0);
    while (!atomic_load_explicit(&ready, memory_order_relaxed)) sched_yield();
    int seen = data;
    atomic_thread_fence(memory_order_acquire);
    pthread_join(t, 0);
    return seen == 9;
}
