/* The head of a ring is stored relaxed; the tail gives the slots back in order. */
#include <pthread.h>
#include <stdatomic.h>
#include <stdio.h>
#ifdef FIXED
#define STORE memory_order_release
#else
#define STORE memory_order_relaxed
#endif
enum { SLOTS = 4, ITEMS = 40 };
static long slots[SLOTS];
static atomic_long head, tail;
static void *produce(void *u) {
    for (long n = 0; n < ITEMS; n++) {
        while (n - atomic_load_explicit(&tail, memory_order_acquire) == SLOTS) sched_yield();
        slots[n % SLOTS] = n;
        atomic_store_explicit(&head, n + 1, STORE);
    }
    return u;
}
int main(void) {
    pthread_t t;
    long sum = 0;
    pthread_create(&t, 0, produce, 0);
    for (long n = 0; n < ITEMS; n++) {
        while (atomic_load_explicit(&head, memory_order_acquire) == n) sched_yield();
        sum += slots[n % SLOTS];
        atomic_store_explicit(&tail, n + 1, memory_order_release);
    }
    printf("%ld\n", sum);
    return pthread_join(t, 0);
}
