/* One thread writes once what another one writes after it, the rest again and again. */
#include <pthread.h>
#include <semaphore.h>
#include <string.h>

static long once, beats, table[4];
static sem_t done;

static void *beat(void *p) {
    once = 1;
    for (int k = 0; k < 5; k++) {
        beats = k;
        memset(table, k, sizeof table);
    }
    sem_post(&done);
    return p;
}

static void *begin_anew(void *p) {
    sem_wait(&done);
    once = beats = 0;
    memset(table, 0, sizeof table);
    return p;
}

int main(void) {
    pthread_t threads[2];
    sem_init(&done, 0, 0);
    pthread_create(&threads[0], 0, beat, 0);
    pthread_create(&threads[1], 0, begin_anew, 0);
    for (int k = 0; k < 2; k++) pthread_join(threads[k], 0);
    return 0;
}
