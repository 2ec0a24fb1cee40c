/* The owner of a robust mutex ends, or is cancelled, with it: what it did comes before what the next owner does. */
#include <errno.h>
#include <pthread.h>
#include <semaphore.h>
#include <stdlib.h>

static pthread_mutex_t mutex;
static sem_t has_it;
static int counter;

static void take(void) {
    int error = pthread_mutex_lock(&mutex);
    if (error == EOWNERDEAD) error = pthread_mutex_consistent(&mutex);
    if (error) abort();
    counter++;
}

static void *ends(void *p) {
    take();
    sem_post(&has_it);
    return p;
}

static void *is_cancelled(void *p) {
    take();
    sem_post(&has_it);
    for (;;) pthread_testcancel();
    return p;
}

static void *goes_on(void *p) {
    take();
    pthread_mutex_unlock(&mutex);
    return p;
}

int main(void) {
    pthread_mutexattr_t robust;
    pthread_t owner, next;
    sem_init(&has_it, 0, 0);
    pthread_mutexattr_init(&robust);
    pthread_mutexattr_setrobust(&robust, PTHREAD_MUTEX_ROBUST);
    pthread_mutex_init(&mutex, &robust);
    for (int k = 0; k < 2; k++) {
        pthread_create(&owner, 0, k ? is_cancelled : ends, 0);
        pthread_create(&next, 0, goes_on, 0);
        sem_wait(&has_it);
        pthread_cancel(owner);
        pthread_join(next, 0);
        pthread_join(owner, 0);
    }
    return counter != 4;
}
