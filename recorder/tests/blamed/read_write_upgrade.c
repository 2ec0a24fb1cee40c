/* Readers refresh a cache while they hold the lock for reading; the writer holds it for writing. */
#include <pthread.h>
static pthread_rwlock_t rw = PTHREAD_RWLOCK_INITIALIZER;
static long value, cached;
static long get(void) {
    pthread_rwlock_rdlock(&rw);
    if (!cached)
        cached = value + 1;
    long found = value;
    pthread_rwlock_unlock(&rw);
    return found;
}
static void *work(void *u) { return get() == 99 ? 0 : u; }
int main(void) {
    pthread_t a, b;
    pthread_create(&a, 0, work, 0);
    pthread_create(&b, 0, work, 0);
    pthread_rwlock_wrlock(&rw);
    value = 2;
    cached = 0;
    pthread_rwlock_unlock(&rw);
    pthread_join(a, 0);
    pthread_join(b, 0);
    return 0;
}
