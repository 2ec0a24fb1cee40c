/* Many events between a race at the beginning and one at the end; the two threads go on in turns. */
#include <pthread.h>
#include <semaphore.h>
enum { ROUNDS = 1000 };
long first, last, cell;
sem_t go[2];
static void *work(void *me_) {
    long me = (long)me_;
    first++; /* RACE */
    for (int i = 0; i < ROUNDS; i++) {
        if (me) sem_wait(&go[1]);
        cell = i;
        sem_post(&go[!me]);
        if (!me) sem_wait(&go[0]);
    }
    last++; /* RACE */
    return 0;
}
int main(void) {
    pthread_t a, b;
    sem_init(&go[0], 0, 0);
    sem_init(&go[1], 0, 0);
    pthread_create(&a, 0, work, (void *)0);
    pthread_create(&b, 0, work, (void *)1);
    pthread_join(a, 0);
    pthread_join(b, 0);
    return 0;
}
