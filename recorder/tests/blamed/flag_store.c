#include <pthread.h>
#include <stdatomic.h>
#include <stdio.h>
#include <stdlib.h>
#include <unistd.h>
static long data; static atomic_int ready;
static void *give(void *u) { data = 7;
    atomic_store_explicit(&ready, 1, memory_order_relaxed); /* BLAME */
    return u; }
static void *take(void *u) {
    while (!atomic_load_explicit(&ready, memory_order_acquire)) usleep(9);
    printf("%ld\n", data); return u; }
int main(void) { pthread_t a, b;  pthread_create(&a, 0, give, 0); pthread_create(&b, 0, take, 0); pthread_join(a, 0); pthread_join(b, 0); return 0; }
