/* A thread's number is written where its creator wants it when the thread may run. Under a lock, and after a join, nothing races. */
#include <pthread.h>
#include <threads.h>
static pthread_t own, locked;
static thrd_t standard;
static pthread_mutex_t lock = PTHREAD_MUTEX_INITIALIZER;

static void *look(void *none) {
    return pthread_equal(own, pthread_self()) ? 0 : none; /* RACE */
}

static void *look_locked(void *none) {
    pthread_mutex_lock(&lock);
    int is_own = pthread_equal(locked, pthread_self());
    pthread_mutex_unlock(&lock);
    return is_own ? 0 : none;
}

static int look_standard(void *none) { return !thrd_equal(standard, thrd_current()); } /* RACE */

int main(void) {
    pthread_create(&own, 0, look, 0); /* RACE */
    pthread_mutex_lock(&lock);
    pthread_create(&locked, 0, look_locked, 0);
    pthread_mutex_unlock(&lock);
    thrd_create(&standard, look_standard, 0); /* RACE */
    pthread_join(own, 0);
    pthread_join(locked, 0);
    thrd_join(standard, 0);
    return 0;
}
