#include <pthread.h>
#include <stdatomic.h>
#include <stdio.h>
#include <stdlib.h>
#include <unistd.h>
static volatile int stop; static long n;
static void *work(void *u) { while (
    !stop) { /* BLAME */
    n++; usleep(5); } return u; }
int main(void) { pthread_t a; pthread_create(&a, 0, work, 0); usleep(100);
    stop = 1; /* BLAME */
    pthread_join(a, 0); return 0; }
