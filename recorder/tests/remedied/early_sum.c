/* The sum is read before the second join. */
#include <pthread.h>
#include <stdio.h>
static long part[2];
static void *add(void *at) {
    long sum = 0;
    for (int i = 0; i < 1000; i++) sum += i;
    *(long *)at = sum;
    return 0;
}
int main(void) {
    pthread_t t[2];
    long sum;
    for (int i = 0; i < 2; i++) pthread_create(&t[i], 0, add, &part[i]);
    pthread_join(t[0], 0);
#ifdef FIXED
    pthread_join(t[1], 0);
#endif
    sum = part[0] + part[1];
#ifndef FIXED
    pthread_join(t[1], 0);
#endif
    printf("%ld\n", sum);
    return 0;
}
