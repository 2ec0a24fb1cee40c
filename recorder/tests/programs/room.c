/* Two threads race, so often that the record needs room many times. What they saw tells the order of their accesses. */
#include <pthread.h>
#include <stdio.h>
enum { ROUNDS = 150000 };
static volatile long shared;
static void *counts(void *seen) {
    unsigned long sum = 0;
    for (int i = 0; i < ROUNDS; i++) sum = sum * 31 + ++shared; /* RACE */
    *(unsigned long *)seen = sum;
    return 0;
}
int main(void) {
    pthread_t threads[2];
    unsigned long seen[2];
    for (int k = 0; k < 2; k++) pthread_create(&threads[k], 0, counts, &seen[k]);
    for (int k = 0; k < 2; k++) pthread_join(threads[k], 0);
    printf("%lx %lx\n", seen[0], seen[1]);
    return 0;
}
