#include <pthread.h>
#include <stdatomic.h>
#include <stdio.h>
#include <stdlib.h>
#include <unistd.h>
static pthread_mutex_t locks[4] = { PTHREAD_MUTEX_INITIALIZER, PTHREAD_MUTEX_INITIALIZER, PTHREAD_MUTEX_INITIALIZER, PTHREAD_MUTEX_INITIALIZER };
static long rows[4];
static void *add(void *u) { for (int i = 0; i < 12; i++) { pthread_mutex_lock(&locks[i % 4]);
    rows[i % 4]++;
    pthread_mutex_unlock(&locks[i % 4]); } return u; }
static void *sum(void *u) { long s = 0; for (int i = 0; i < 12; i++) { usleep(2);
    s += rows[i % 4]; /* BLAME */
    } printf("%ld\n", s); return u; }
int main(void) { pthread_t a, b;  pthread_create(&a, 0, add, 0); pthread_create(&b, 0, sum, 0); pthread_join(a, 0); pthread_join(b, 0); return 0; }
