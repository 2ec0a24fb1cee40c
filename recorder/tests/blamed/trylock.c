#include <pthread.h>
#include <stdatomic.h>
#include <stdio.h>
#include <stdlib.h>
#include <unistd.h>
static pthread_mutex_t m = PTHREAD_MUTEX_INITIALIZER, m2 = PTHREAD_MUTEX_INITIALIZER;
static long n;
static void *locked(void *u) { for (int i = 0; i < 9; i++) { pthread_mutex_lock(&m);
    n++;
    usleep(9); pthread_mutex_unlock(&m); usleep(2); } return u; }
static void *tries(void *u) { for (int i = 0; i < 9; i++) { int got = !pthread_mutex_trylock(&m);
    n--; /* BLAME */
    if (got) pthread_mutex_unlock(&m); usleep(3); } return u; }
int main(void) { pthread_t a, b;  pthread_create(&a, 0, locked, 0); pthread_create(&b, 0, tries, 0); pthread_join(a, 0); pthread_join(b, 0); return 0; }
