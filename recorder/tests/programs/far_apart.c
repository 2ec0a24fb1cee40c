/* The first access of one thread races with the last one of the other. Between them both write `cell` many times, which races, too.
   Now and then the second waits for the first, by a call that orders nothing: else it may be through before that one wakes. */
#include <pthread.h>
#include <sched.h>
#include <semaphore.h>
enum { ROUNDS = 1000 };
long far, cell;
sem_t go;
static void *begin(void *unused) {
    far = 1; /* RACE */
    for (int i = 0; i < ROUNDS; i++) {
        cell = i; /* RACE */
        sem_wait(&go);
    }
    return 0;
}
static void *end(void *unused) {
    for (int i = 0; i < ROUNDS; i++) {
        cell = i; /* RACE */
        sem_post(&go);
        for (int left = i % 4 == 0; left > 0; sem_getvalue(&go, &left)) sched_yield();
    }
    far = 2; /* RACE */
    return 0;
}
int main(void) {
    pthread_t a, b;
    sem_init(&go, 0, 0);
    pthread_create(&a, 0, begin, 0);
    pthread_create(&b, 0, end, 0);
    pthread_join(a, 0);
    pthread_join(b, 0);
    return 0;
}
