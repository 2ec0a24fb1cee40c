#include <pthread.h>
#include <stdatomic.h>
#include <stdio.h>
#include <stdlib.h>
#include <unistd.h>
static pthread_mutex_t m = PTHREAD_MUTEX_INITIALIZER, m2 = PTHREAD_MUTEX_INITIALIZER;
static long *box;
static void *work(void *u) { for (int i = 0; i < 9; i++) { pthread_mutex_lock(&m);
    *box += 1;
    pthread_mutex_unlock(&m); usleep(3); } return u; }
int main(void) { pthread_t a, b; box = malloc(8); pthread_create(&a, 0, (void *(*)(void *))usleep, (void *)1);
    *box = 0;
    pthread_create(&b, 0, work, 0); usleep(20);
    *box = 5; /* BLAME */
    pthread_join(a, 0); pthread_join(b, 0); printf("%ld\n", *box); return 0; }
