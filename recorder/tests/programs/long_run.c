/* Each thread counts by itself: at 130,000 steps half a million accesses, records of more than one step of the file. */
#include <pthread.h>
#ifndef STEPS
#define STEPS 130000
#endif
static long sums[2];
static void *work(void *sum) {
    for (int i = 0; i < STEPS; i++) *(volatile long *)sum += i;
    return 0;
}
int main(void) {
    pthread_t t;
    pthread_create(&t, 0, work, &sums[0]);
    work(&sums[1]);
    pthread_join(t, 0);
    return sums[0] != sums[1];
}
