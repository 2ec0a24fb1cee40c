/* Locks and atomics that lie on a stack, and what threads do with them. */
#include <pthread.h>
#include <stdatomic.h>
struct queue { int count; pthread_mutex_t door; pthread_rwlock_t gate; _Atomic int tail; long items[4]; };
static void *use(void *given) {
    struct queue *q = given;
    pthread_mutex_lock(&q->door);
    q->count++;
    pthread_mutex_unlock(&q->door);
    pthread_rwlock_rdlock(&q->gate);
    q->items[1]++; /* RACE */
    pthread_rwlock_unlock(&q->gate);
    atomic_store_explicit(&q->tail, 1, memory_order_relaxed);
    return 0;
}
int main(void) {
    struct queue work = {.count = 1, .door = PTHREAD_MUTEX_INITIALIZER, .gate = PTHREAD_RWLOCK_INITIALIZER};
    pthread_t one, other;
    pthread_create(&one, 0, use, &work);
    pthread_create(&other, 0, use, &work);
    use(&work);
    pthread_join(one, 0);
    pthread_join(other, 0);
    return work.count != 4;
}
