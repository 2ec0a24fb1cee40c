#include <pthread.h>
#include <stdatomic.h>
#include <stdio.h>
#include <stdlib.h>
#include <unistd.h>
static pthread_mutex_t m = PTHREAD_MUTEX_INITIALIZER, m2 = PTHREAD_MUTEX_INITIALIZER;
static long sum;
static void *add(void *u) { for (int i = 0; i < 9; i++) { pthread_mutex_lock(&m);
    sum++;
    pthread_mutex_unlock(&m); } return u; }
static void *take(void *u) { for (int i = 0; i < 9; i++) { pthread_mutex_lock(&m);
    sum--;
    pthread_mutex_unlock(&m); usleep(9);
    sum = 0; /* BLAME */
    } return u; }
int main(void) { pthread_t a, b;  pthread_create(&a, 0, add, 0); pthread_create(&b, 0, take, 0); pthread_join(a, 0); pthread_join(b, 0); return 0; }
