#include <pthread.h>
#include <stdatomic.h>
#include <stdio.h>
#include <stdlib.h>
#include <unistd.h>
static long hits;
static void *work(void *u) { for (int i = 0; i < 9; i++)
    hits++, usleep(2); /* BLAME */
    return u; }
int main(void) { pthread_t a, b;  pthread_create(&a, 0, work, 0); pthread_create(&b, 0, work, 0); pthread_join(a, 0); pthread_join(b, 0); return 0; }
