#include <pthread.h>
#include <stdatomic.h>
#include <stdio.h>
#include <stdlib.h>
#include <unistd.h>
static long result;
static void *work(void *u) {
    result = 42;
    return u; }
int main(void) { pthread_t a; pthread_create(&a, 0, work, 0); usleep(50);
    printf("%ld\n", result); /* BLAME */
    pthread_join(a, 0); return 0; }
