/* A sum over counters, one for each thread, without their locks. */
#include <pthread.h>
static struct { pthread_mutex_t lock; long count; char pad[64]; } slot[3];
static void *work(void *it) {
    int me = (int)(long)it;
    for (int k = 0; k < 4; k++) {
        pthread_mutex_lock(&slot[me].lock);
        slot[me].count++;
        pthread_mutex_unlock(&slot[me].lock);
    }
    return 0;
}
int main(void) {
    pthread_t t[3];
    for (int k = 0; k < 3; k++) pthread_mutex_init(&slot[k].lock, 0);
    for (long k = 0; k < 3; k++) pthread_create(&t[k], 0, work, (void *)k);
    long sum = 0;
    for (int k = 0; k < 3; k++)
        sum += slot[k].count;
    for (int k = 0; k < 3; k++) pthread_join(t[k], 0);
    return sum == 99;
}
