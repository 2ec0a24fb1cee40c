/* Threads that are cancelled at any moment: most of them in a hook, or where they wait for the turn. */
#include <pthread.h>
#include <time.h>

static long own[3][64];
static int rounds;

static void *compute(void *mine_) {
    long *mine = mine_;
    pthread_setcanceltype(PTHREAD_CANCEL_ASYNCHRONOUS, 0);
    for (long i = 0;; i++) mine[i % 64] += i;
    return mine;
}

int main(void) {
    pthread_t threads[3];
    for (; rounds < 20; rounds++) {
        struct timespec pause = {0, 100000 * rounds};
        for (int k = 0; k < 3; k++) pthread_create(&threads[k], 0, compute, own[k]);
        nanosleep(&pause, 0);
        for (int k = 0; k < 3; k++) pthread_cancel(threads[k]);
        for (int k = 0; k < 3; k++) pthread_join(threads[k], 0);
    }
    return rounds != 20;
}
