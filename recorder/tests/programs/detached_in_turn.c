/* Threads of which each ends before the next begins: a few are joined, the others are detached in three ways. And two at the end that run
   beside each other. */
#include <pthread.h>
#include <semaphore.h>

enum { THREADS = 100, WAYS = 8 };
static sem_t done;
static int count, racy;
static void *work(void *is_left) {
    count++;
    if (is_left) sem_post(&done);
    return 0;
}

static void *detach_and_work(void *is_left) {
    pthread_detach(pthread_self());
    return work(is_left);
}

static void *work_with_another(void *unused) {
    racy++; /* RACE */
    return 0;
}

static void run_one(int way, const pthread_attr_t *detached) {
    pthread_t t;
    pthread_create(&t, way > 2 ? detached : 0, way == 1 ? detach_and_work : work, way ? &done : 0);
    if (!way) pthread_join(t, 0);
    else sem_wait(&done);
    if (way == 2) pthread_detach(t);
}

int main(void) {
    pthread_t t, u;
    pthread_attr_t detached;
    pthread_attr_init(&detached);
    pthread_attr_setdetachstate(&detached, PTHREAD_CREATE_DETACHED);
    sem_init(&done, 0, 0);
    for (int i = 0; i < THREADS; i++) run_one(i % WAYS, &detached);
    pthread_create(&t, 0, work_with_another, 0);
    pthread_create(&u, 0, work_with_another, 0);
    pthread_join(t, 0);
    pthread_join(u, 0);
    return count != THREADS;
}
