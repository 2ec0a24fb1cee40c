#include <pthread.h>
#include <stdatomic.h>
#include <stdio.h>
#include <stdlib.h>
#include <unistd.h>
static long slot[8]; static atomic_uint head, tail;
static void *put(void *u) { for (unsigned i = 0; i < 20; i++) { while (i - atomic_load_explicit(&tail, memory_order_relaxed) == 8) usleep(3); /* BLAME */
    slot[i % 8] = i;
    atomic_store_explicit(&head, i + 1, memory_order_release); } return u; }
static void *get(void *u) { long s = 0; for (unsigned i = 0; i < 20; i++) { while (atomic_load_explicit(&head, memory_order_acquire) == i) usleep(3);
    s += slot[i % 8];
    atomic_store_explicit(&tail, i + 1, memory_order_release); } printf("%ld\n", s); return u; }
int main(void) { pthread_t a, b;  pthread_create(&a, 0, put, 0); pthread_create(&b, 0, get, 0); pthread_join(a, 0); pthread_join(b, 0); return 0; }
