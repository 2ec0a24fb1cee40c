#include <pthread.h>
#include <stdatomic.h>
#include <stdio.h>
#include <stdlib.h>
#include <unistd.h>
static pthread_mutex_t m = PTHREAD_MUTEX_INITIALIZER, m2 = PTHREAD_MUTEX_INITIALIZER;
static long n; static atomic_long served, waits;
static void *work(void *u) { for (int i = 0; i < 9; i++) { atomic_fetch_add_explicit(&served, 1, memory_order_relaxed); pthread_mutex_lock(&m);
    n++;
    pthread_mutex_unlock(&m); atomic_store_explicit(&waits, i, memory_order_relaxed); usleep(3); } return u; }
static void *show(void *u) { long s = 0; for (int i = 0; i < 9; i++) { usleep(4); s += atomic_load_explicit(&served, memory_order_relaxed);
    n = 0; /* BLAME */
    s += atomic_load_explicit(&waits, memory_order_relaxed); } printf("%ld\n", s); return u; }
int main(void) { pthread_t a, b;  pthread_create(&a, 0, work, 0); pthread_create(&b, 0, show, 0); pthread_join(a, 0); pthread_join(b, 0); return 0; }
