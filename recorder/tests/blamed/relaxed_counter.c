// `hits` lacks a lock; `served` is a relaxed statistics counter that has nothing to do with it.
#include <pthread.h>
#include <stdatomic.h>
#include <stdio.h>
static long hits; static atomic_long served;
static void *work(void *u) { for (int i = 0; i < 3; i++) {
        atomic_fetch_add_explicit(&served, 1, memory_order_relaxed);
        hits++;
    } return u; }
int main(void) { pthread_t a, b; pthread_create(&a, 0, work, 0); pthread_create(&b, 0, work, 0); pthread_join(a, 0); pthread_join(b, 0); printf("%ld %ld\n", hits, served); return 0; }
