/* Two threads, of which one has ended before the other begins, and a main without accesses: there is one interleaving. */
#include <pthread.h>
static int shared;
static void *work(void *unused) {
    shared++;
    return 0;
}
__attribute__((no_sanitize("thread"))) int main(void) {
    pthread_t t;
    for (int i = 0; i < 2; i++) {
        pthread_create(&t, 0, work, 0);
        pthread_join(t, 0);
    }
    return 0;
}
