/* Two threads that have one lock most of their time, so the other one mostly finds it busy: the race is there only
   where they take it by turns. */
#include <pthread.h>

static pthread_mutex_t mutex = PTHREAD_MUTEX_INITIALIZER;
static int count, seen;

static void *adds(void *x) {
    for (int i = 0; i < 30; i++) {
        pthread_mutex_lock(&mutex);
        if (count < 100) count++; /* RACE */
        pthread_mutex_unlock(&mutex);
    }
    return 0;
}

static void *takes(void *x) {
    for (int i = 0; i < 30; i++) {
        pthread_mutex_lock(&mutex);
        if (count > 0) count--;
        pthread_mutex_unlock(&mutex);
        if (count == 0) seen++; /* RACE */
    }
    return 0;
}

int main(void) {
    pthread_t a, b;
    pthread_create(&a, 0, adds, 0);
    pthread_create(&b, 0, takes, 0);
    pthread_join(a, 0);
    pthread_join(b, 0);
    return 0;
}
