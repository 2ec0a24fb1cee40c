/* A block is used after it was freed, which a relaxed atomic tells and doesn't order. */
#include <pthread.h>
#include <stdatomic.h>
#include <stdlib.h>
static long *shared;
static _Atomic int freed;
static void *use(void *unused) {
    while (!atomic_load_explicit(&freed, memory_order_relaxed)) {}
    *shared = 2; /* RACE */
    return 0;
}
int main(void) {
    pthread_t user;
    shared = malloc(64);
    *shared = 1;
    pthread_create(&user, 0, use, 0);
    free(shared); /* RACE */
    atomic_store_explicit(&freed, 1, memory_order_relaxed);
    pthread_join(user, 0);
    return 0;
}
