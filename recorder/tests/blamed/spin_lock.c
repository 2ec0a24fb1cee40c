// A textbook spin lock (acquire exchange, relaxed spin, release store, as libcurl's easy_lock.h) protects `guarded`; `hits` lacks it.
#include <pthread.h>
#include <stdatomic.h>
#include <stdio.h>
static long hits, guarded; static atomic_int lock;
static void take(void) { for (;;) {
        if (!atomic_exchange_explicit(&lock, 1, memory_order_acquire)) return;
        while (atomic_load_explicit(&lock, memory_order_relaxed)) ;
    } }
static void drop(void) { atomic_store_explicit(&lock, 0, memory_order_release); }
static void *work(void *u) { for (int i = 0; i < 300; i++) {
        take(); guarded++; drop();
        hits++;
    } return u; }
int main(void) { pthread_t a, b; pthread_create(&a, 0, work, 0); pthread_create(&b, 0, work, 0); pthread_join(a, 0); pthread_join(b, 0); printf("%ld %ld\n", hits > 0, guarded); return 0; }
