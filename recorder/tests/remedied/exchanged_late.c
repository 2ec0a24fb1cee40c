/* A message is written after the exchange that hands it on. */
#include <pthread.h>
#include <unistd.h>
static struct message { int length, sent; } messages[20], *slot;
static void *sends(void *u) {
    for (int n = 0; n < 20; n++) {
        struct message *m = &messages[n];
        m->length = n;
#ifdef FIXED
        m->sent = 1;
#endif
        __atomic_exchange_n(&slot, m, __ATOMIC_ACQ_REL);
#ifndef FIXED
        m->sent = 1;
#endif
    }
    return u;
}
static void *takes(void *u) {
    long sum = 0;
    for (int n = 0; n < 200; n++) {
        struct message *m = __atomic_exchange_n(&slot, 0, __ATOMIC_ACQ_REL);
        if (m) sum += m->length + m->sent;
        else usleep(9);
    }
    return (void *)sum;
}
int main(void) {
    pthread_t one, two;
    pthread_create(&one, 0, sends, 0);
    pthread_create(&two, 0, takes, 0);
    pthread_join(one, 0);
    pthread_join(two, 0);
    return 0;
}
