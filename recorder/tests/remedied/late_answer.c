/* a part of the answer is written behind the post that announces it */
#include <pthread.h>
#include <semaphore.h>
#include <stdio.h>
static sem_t done;
static struct { long code, bytes; } answer;
static void *fetch(void *unused) {
    answer.code = 200;
#ifdef FIXED
    answer.bytes = 4096;
    sem_post(&done);
#else
    sem_post(&done);
    answer.bytes = 4096; /* BLAME */
#endif
    return unused;
}
int main(void) {
    pthread_t thread;
    sem_init(&done, 0, 0);
    pthread_create(&thread, 0, fetch, 0);
    sem_wait(&done);
    printf("%ld %ld\n", answer.code, answer.bytes);
    pthread_join(thread, 0);
    return 0;
}
