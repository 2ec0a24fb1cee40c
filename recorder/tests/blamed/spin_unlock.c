#include <pthread.h>
#include <stdatomic.h>
#include <stdio.h>
#include <stdlib.h>
#include <unistd.h>
static atomic_int lock; static long n;
static void *work(void *u) { for (int i = 0; i < 9; i++) {
    while (atomic_exchange_explicit(&lock, 1, memory_order_acquire)) usleep(3);
    n++;
    atomic_store_explicit(&lock, 0, memory_order_relaxed); /* BLAME */
    usleep(5); } return u; }
int main(void) { pthread_t a, b;  pthread_create(&a, 0, work, 0); pthread_create(&b, 0, work, 0); pthread_join(a, 0); pthread_join(b, 0); return 0; }
