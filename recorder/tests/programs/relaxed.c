/* Relaxed loads take nothing over, and relaxed stores give nothing on; release and acquire must come together. */
#include <pthread.h>
#include <stdatomic.h>
int both, loads, stores, none;
atomic_int ready_both, ready_loads, ready_stores, ready_none;
static void *gives(void *unused) {
    both = 1; /* RACE: nobody orders it */
    atomic_store_explicit(&ready_both, 1, memory_order_relaxed);
    loads = 1; /* RACE: the load is relaxed */
    atomic_store_explicit(&ready_loads, 1, memory_order_release);
    stores = 1; /* RACE: the store is relaxed */
    atomic_store_explicit(&ready_stores, 1, memory_order_relaxed);
    none = 1;
    atomic_store_explicit(&ready_none, 1, memory_order_release);
    return 0;
}
static void *takes(void *unused) {
    int sum = 0;
    while (!atomic_load_explicit(&ready_both, memory_order_relaxed)) ;
    sum += both; /* RACE */
    while (!atomic_load_explicit(&ready_loads, memory_order_relaxed)) ;
    sum += loads; /* RACE */
    while (!atomic_load_explicit(&ready_stores, memory_order_acquire)) ;
    sum += stores; /* RACE */
    while (!atomic_load_explicit(&ready_none, memory_order_acquire)) ;
    return (void *)(long)(sum + none);
}
int main(void) {
    pthread_t a, b;
    pthread_create(&a, 0, takes, 0);
    pthread_create(&b, 0, gives, 0);
    pthread_join(a, 0);
    pthread_join(b, 0);
    return both + loads + stores + none != 4;
}
