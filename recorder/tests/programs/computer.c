/* A thread computes with the turn, without hooks, until main has used its own. */
#include <pthread.h>
#include <semaphore.h>

static int stop;
static sem_t ready;

static int stopped(void) {             /* no hook before this read */
    int value;
    __asm__ volatile("movl %1, %0" : "=r"(value) : "m"(stop));
    return value;
}

static void *computes(void *unused) {
    sem_post(&ready);
    while (!stopped()) ;
    return 0;
}

int main(void) {
    pthread_t t;
    sem_init(&ready, 0, 0);
    pthread_create(&t, 0, computes, 0);
    sem_wait(&ready);
    __atomic_store_n(&stop, 1, __ATOMIC_SEQ_CST);
    pthread_join(t, 0);
    return 0;
}
