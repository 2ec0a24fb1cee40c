/* Workers that sleep until there is work, and then take a job sooner than the system lets another one go on: the
   race is there only where two of them work. */
#include <pthread.h>

enum { JOBS = 20 };
static pthread_mutex_t mutex = PTHREAD_MUTEX_INITIALIZER;
static pthread_cond_t more = PTHREAD_COND_INITIALIZER;
static int there, unprotected;

static int take(void) {
    pthread_mutex_lock(&mutex);
    while (!there) pthread_cond_wait(&more, &mutex);
    int job = there > 0 ? there-- : 0;
    pthread_mutex_unlock(&mutex);
    return job;
}

static void *work(void *x) {
    while (take()) unprotected++; /* RACE */
    return 0;
}

int main(void) {
    pthread_t workers[3];
    for (int i = 0; i < 3; i++) pthread_create(&workers[i], 0, work, 0);
    for (int i = 0; i < JOBS; i++) {
        pthread_mutex_lock(&mutex);
        there++;
        pthread_mutex_unlock(&mutex);
        pthread_cond_signal(&more);
    }
    for (int is_empty = 0; !is_empty;) {
        pthread_mutex_lock(&mutex);
        is_empty = !there;
        if (is_empty) there = -1;
        pthread_mutex_unlock(&mutex);
    }
    pthread_cond_broadcast(&more);
    for (int i = 0; i < 3; i++) pthread_join(workers[i], 0);
    return 0;
}
