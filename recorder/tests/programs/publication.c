/* A block is handed on by an atomic pointer, which is stored without release; its taker frees it. */
#include <pthread.h>
#include <stdatomic.h>
#include <stdlib.h>
struct message { int id; };
static _Atomic(struct message *) slot;
static void *produce(void *unused) {
    struct message *made = malloc(sizeof *made);
    made->id = 42; /* RACE */
    atomic_store_explicit(&slot, made, memory_order_relaxed);
    return 0;
}
static void *consume(void *unused) {
    struct message *got;
    while (!(got = atomic_load_explicit(&slot, memory_order_acquire))) {}
    long id = got->id; /* RACE */
    free(got); /* no race: the read before took what was written, which orders the two */
    return (void *)id;
}
int main(void) {
    pthread_t a, b;
    pthread_create(&a, 0, consume, 0);
    pthread_create(&b, 0, produce, 0);
    pthread_join(a, 0);
    pthread_join(b, 0);
    return 0;
}
