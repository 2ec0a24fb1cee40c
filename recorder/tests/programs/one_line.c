/* Reads of a variable in one line are one event, until it is written. AT MOST 5 EVENTS */
#include <pthread.h>

static volatile int shared;

static void *run(void *unused) {
    int sum = 0;
    for (int k = 0; k < 10; k++) sum += shared + shared * shared; /* RACE */
    return sum ? 0 : unused;
}

int main(void) {
    pthread_t thread;
    pthread_create(&thread, 0, run, 0);
    shared = 1; /* RACE */
    return pthread_join(thread, 0);
}
