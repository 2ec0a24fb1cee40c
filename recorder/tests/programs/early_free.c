/* A block is freed after another thread used it, which a relaxed atomic tells and doesn't order. */
#include <pthread.h>
#include <stdatomic.h>
#include <stdlib.h>
struct node { long key, weight; };
static struct node *shared;
static _Atomic int used;
long sum;
static void *use(void *unused) {
    sum = shared->key + shared->weight; /* RACE */
    atomic_store_explicit(&used, 1, memory_order_relaxed);
    return 0;
}
int main(void) {
    pthread_t user;
    shared = calloc(1, sizeof *shared);
    shared->key = 1;
    pthread_create(&user, 0, use, 0);
    while (!atomic_load_explicit(&used, memory_order_relaxed)) {}
    free(shared); /* RACE */
    pthread_join(user, 0);
    return 0;
}
