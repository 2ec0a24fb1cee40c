/* A semaphore of two lets two threads in. */
#include <pthread.h>
#include <semaphore.h>
static sem_t s;
static long hits;
static void *work(void *u) {
    sem_wait(&s);
    hits++;
    sem_post(&s);
    return u;
}
int main(void) {
    pthread_t t[3];
    sem_init(&s, 0, 2);
    for (int k = 0; k < 3; k++) pthread_create(&t[k], 0, work, 0);
    for (int k = 0; k < 3; k++) pthread_join(t[k], 0);
    return hits == 9;
}
