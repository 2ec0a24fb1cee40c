/* The writer locks the list's lock, the reader the lock of its counter. */
#include <pthread.h>
static pthread_mutex_t list_lock = PTHREAD_MUTEX_INITIALIZER, count_lock = PTHREAD_MUTEX_INITIALIZER;
static long length;
static void *grow(void *u) {
    for (int i = 0; i < 20; i++) {
        pthread_mutex_lock(&list_lock);
        length++;
        pthread_mutex_unlock(&list_lock);
    }
    return u;
}
static void *shrink(void *u) {
#ifdef FIXED
    pthread_mutex_t *lock = &list_lock;
#else
    pthread_mutex_t *lock = &count_lock;
#endif
    for (int i = 0; i < 20; i++) {
        pthread_mutex_lock(lock);
        length--;
        pthread_mutex_unlock(lock);
    }
    return u;
}
int main(void) {
    pthread_t a, b;
    pthread_create(&a, 0, grow, 0);
    pthread_create(&b, 0, shrink, 0);
    pthread_join(a, 0);
    return pthread_join(b, 0);
}
