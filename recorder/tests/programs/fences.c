/* A release fence before a relaxed store, an acquire fence after a relaxed load; and a count of owners that the last one
   ends by a fence. */
#include <pthread.h>
#include <stdatomic.h>
enum { OWNERS = 3 };
int data, early, late, slots[OWNERS], sum;
atomic_int ready, owners = OWNERS;
static void leave(long me) {
    slots[me] = 1;
    if (atomic_fetch_sub_explicit(&owners, 1, memory_order_release) != 1) return;
    atomic_thread_fence(memory_order_acquire);
    for (int i = 0; i < OWNERS; i++) sum += slots[i];
}
static void *gives(void *unused) {
    leave(0);
    data = 1;
    early = 1; /* RACE: it is read before the fence */
    atomic_thread_fence(memory_order_release);
    atomic_store_explicit(&ready, 1, memory_order_relaxed);
    late = 1; /* RACE: after the store */
    return 0;
}
static void *takes(void *unused) {
    leave(1);
    while (!atomic_load_explicit(&ready, memory_order_relaxed)) ;
    int all = early; /* RACE */
    atomic_thread_fence(memory_order_acquire);
    return (void *)(long)(all + data + late); /* RACE: late */
}
static void *owns(void *unused) { return leave(2), NULL; }
int main(void) {
    pthread_t t[3];
    pthread_create(&t[0], 0, takes, 0);
    pthread_create(&t[1], 0, gives, 0);
    pthread_create(&t[2], 0, owns, 0);
    for (int i = 0; i < 3; i++) pthread_join(t[i], 0);
    return sum != OWNERS || data + early + late != 3;
}
