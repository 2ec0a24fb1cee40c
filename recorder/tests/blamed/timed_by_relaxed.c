/* A relaxed atomic only keeps the threads in step; the counter has a lock that one line forgets. */
#include <pthread.h>
#include <sched.h>
#include <stdatomic.h>
static atomic_int turn;
static long hits;
static pthread_mutex_t m = PTHREAD_MUTEX_INITIALIZER;
static void step(void) { pthread_mutex_lock(&m); hits++; pthread_mutex_unlock(&m); }
static void *work(void *u) {
    for (int k = 0; k < 3; k++) step();
    while (atomic_load_explicit(&turn, memory_order_relaxed) < 1) sched_yield();
    step();
    return u;
}
int main(void) {
    pthread_t t;
    pthread_create(&t, 0, work, 0);
    for (int k = 0; k < 3; k++) step();
    hits += 10;
    atomic_fetch_add_explicit(&turn, 1, memory_order_release);
    for (int k = 0; k < 3; k++) step();
    pthread_join(t, 0);
    return hits == 99;
}
