/* A release sequence goes on through updates of any order and stores of its own thread, and ends at another's store. */
#include <pthread.h>
#include <stdatomic.h>
int updated, unseen, own, ended;
atomic_int by_updates, by_own, by_other;
static void *first(void *unused) {
    updated = unseen = 1; /* RACE: unseen, with the second thread */
    atomic_store_explicit(&by_updates, 1, memory_order_release);
    own = 1;
    atomic_store_explicit(&by_own, 1, memory_order_release);
    atomic_store_explicit(&by_own, 2, memory_order_relaxed);
    ended = 1; /* RACE: the second thread's store ends the sequence */
    atomic_store_explicit(&by_other, 1, memory_order_release);
    return 0;
}
static void *second(void *unused) {
    while (atomic_load_explicit(&by_updates, memory_order_relaxed) != 1) ;
    atomic_fetch_add_explicit(&by_updates, 1, memory_order_relaxed);
    int seen = unseen; /* RACE */
    while (atomic_load_explicit(&by_other, memory_order_relaxed) != 1) ;
    atomic_store_explicit(&by_other, 2, memory_order_relaxed);
    return (void *)(long)seen;
}
static void *third(void *unused) {
    while (atomic_load_explicit(&by_other, memory_order_relaxed) != 2) ;
    int sum = atomic_load_explicit(&by_other, memory_order_acquire);
    sum += ended; /* RACE */
    while (atomic_load_explicit(&by_updates, memory_order_acquire) != 2) ;
    sum += updated;
    while (atomic_load_explicit(&by_own, memory_order_acquire) != 2) ;
    return (void *)(long)(sum + own);
}
int main(void) {
    pthread_t t[3];
    pthread_create(&t[0], 0, third, 0);
    pthread_create(&t[1], 0, second, 0);
    pthread_create(&t[2], 0, first, 0);
    for (int i = 0; i < 3; i++) pthread_join(t[i], 0);
    return updated + unseen + own + ended != 4;
}
