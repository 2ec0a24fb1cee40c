#include <pthread.h>
#include <stdatomic.h>
#include <stdio.h>
#include <stdlib.h>
#include <unistd.h>
static pthread_mutex_t m = PTHREAD_MUTEX_INITIALIZER, m2 = PTHREAD_MUTEX_INITIALIZER;
static long n;
static void add(void) {
    n++; /* BLAME */
}
static void *locked(void *u) { for (int i = 0; i < 9; i++) { pthread_mutex_lock(&m); add(); pthread_mutex_unlock(&m); usleep(3); } return u; }
static void *bare(void *u) { for (int i = 0; i < 3; i++) { add(); usleep(7); pthread_mutex_lock(&m); n--; pthread_mutex_unlock(&m); } return u; }
int main(void) { pthread_t a, b;  pthread_create(&a, 0, locked, 0); pthread_create(&b, 0, bare, 0); pthread_join(a, 0); pthread_join(b, 0); return 0; }
