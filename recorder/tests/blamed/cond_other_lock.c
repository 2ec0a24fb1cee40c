#include <pthread.h>
#include <stdatomic.h>
#include <stdio.h>
#include <stdlib.h>
#include <unistd.h>
static pthread_mutex_t m = PTHREAD_MUTEX_INITIALIZER, m2 = PTHREAD_MUTEX_INITIALIZER;
static int ready;
static void *give(void *u) { usleep(50); pthread_mutex_lock(&m2);
    ready = 1; /* BLAME */
    pthread_mutex_unlock(&m2); return u; }
static void *take(void *u) { int r = 0; while (!r) { pthread_mutex_lock(&m);
    r = ready;
    pthread_mutex_unlock(&m); usleep(9); pthread_mutex_lock(&m);
    if (ready == 3) puts("?");
    pthread_mutex_unlock(&m); } return u; }
int main(void) { pthread_t a, b;  pthread_create(&a, 0, give, 0); pthread_create(&b, 0, take, 0); pthread_join(a, 0); pthread_join(b, 0); return 0; }
