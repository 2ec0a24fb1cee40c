/* The number of hits is counted under the lock for reading. */
#include <pthread.h>
static pthread_rwlock_t lock = PTHREAD_RWLOCK_INITIALIZER;
static struct { int value; long hits; } cache;
static int look(void) {
#ifdef FIXED
    pthread_rwlock_wrlock(&lock);
#else
    pthread_rwlock_rdlock(&lock);
#endif
    cache.hits++;
    int value = cache.value;
    pthread_rwlock_unlock(&lock);
    return value;
}
static void *run(void *u) {
    for (int i = 0; i < 20; i++) look();
    return u;
}
int main(void) {
    pthread_t t[2];
    for (int i = 0; i < 2; i++) pthread_create(&t[i], 0, run, 0);
    for (int i = 0; i < 2; i++) pthread_join(t[i], 0);
    return 0;
}
