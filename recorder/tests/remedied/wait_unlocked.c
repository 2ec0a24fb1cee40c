/* The state is changed without the lock that its waiters hold. */
#include <pthread.h>
static pthread_mutex_t lock = PTHREAD_MUTEX_INITIALIZER;
static pthread_cond_t changed = PTHREAD_COND_INITIALIZER;
static int state;
static void *wait_for_it(void *u) {
    pthread_mutex_lock(&lock);
    for (int i = 0; i < 50 && state < 3; i++) {
        pthread_mutex_unlock(&lock);
        pthread_mutex_lock(&lock);
    }
    pthread_mutex_unlock(&lock);
    return u;
}
int main(void) {
    pthread_t t[2];
    for (int i = 0; i < 2; i++) pthread_create(&t[i], 0, wait_for_it, 0);
    for (int i = 0; i < 4; i++) {
#ifdef FIXED
        pthread_mutex_lock(&lock);
        state++;
        pthread_mutex_unlock(&lock);
#else
        state++;
#endif
        pthread_cond_broadcast(&changed);
    }
    for (int i = 0; i < 2; i++) pthread_join(t[i], 0);
    return 0;
}
