/* The worker's lock is a local of its own, and main can't hold it. */
#include <pthread.h>
#include <unistd.h>
static long total;
static pthread_mutex_t shared = PTHREAD_MUTEX_INITIALIZER;
static void *add(void *u) {
    pthread_mutex_t own = PTHREAD_MUTEX_INITIALIZER;
#ifdef FIXED
    pthread_mutex_t *lock = &shared;
#else
    pthread_mutex_t *lock = &own;
#endif
    for (long i = 0; i < 20; i++) {
        pthread_mutex_lock(lock);
        total += i;
        pthread_mutex_unlock(lock);
    }
    return u;
}
int main(void) {
    pthread_t t;
    long seen = 0;
    pthread_create(&t, 0, add, 0);
    for (int i = 0; i < 5; i++, usleep(10)) {
#ifdef FIXED
        pthread_mutex_lock(&shared);
#endif
        seen += total;
#ifdef FIXED
        pthread_mutex_unlock(&shared);
#endif
    }
    pthread_join(t, 0);
    return seen == 1;
}
