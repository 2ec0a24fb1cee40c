/* Two threads that each end before another one could be started, and one of which forgets the mutex: the race is there only
   where they overlap, or where the second begins first. */
#include <pthread.h>

static pthread_mutex_t mutex = PTHREAD_MUTEX_INITIALIZER;
static int shared, unprotected;

static void *first(void *x) {
    for (int i = 0; i < 4; i++) {
        pthread_mutex_lock(&mutex);
        shared++;
        pthread_mutex_unlock(&mutex);
    }
    unprotected++; /* RACE */
    return 0;
}

static void *second(void *x) {
    unprotected++; /* RACE */
    for (int i = 0; i < 4; i++) {
        pthread_mutex_lock(&mutex);
        shared++;
        pthread_mutex_unlock(&mutex);
    }
    return 0;
}

int main(void) {
    pthread_t a, b;
    pthread_create(&a, 0, first, 0);
    pthread_create(&b, 0, second, 0);
    pthread_join(a, 0);
    pthread_join(b, 0);
    return 0;
}
