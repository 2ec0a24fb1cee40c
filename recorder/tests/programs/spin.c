/* A thread waits for a lock by a loop of exchanges, and then three for two flags by loops of atomic loads. What they wait for is ordered.
   The loops are a few records. */
#include <pthread.h>
#include <stdatomic.h>
#include <unistd.h>

static atomic_int first, second, lock = 1;
static int data, racy;

static void *waits(void *unused) {
    while (!atomic_load_explicit(&first, memory_order_acquire) || !atomic_load_explicit(&second, memory_order_acquire)) ;
    int got = data;
    racy = got;                                              /* RACE */
    return 0;
}

static void *takes(void *unused) {
    while (atomic_exchange_explicit(&lock, 1, memory_order_acquire)) ;
    data++;
    return 0;
}

int main(void) {
    pthread_t t[4];
    pthread_create(&t[3], 0, takes, 0);
    usleep(300000);
    data = 6;
    atomic_store_explicit(&lock, 0, memory_order_release);
    pthread_join(t[3], 0);
    for (int i = 0; i < 3; i++) pthread_create(&t[i], 0, waits, 0);
    usleep(300000);
    atomic_store_explicit(&first, 1, memory_order_release);
    usleep(100000);
    atomic_store_explicit(&second, 1, memory_order_release);
    for (int i = 0; i < 3; i++) pthread_join(t[i], 0);
    return racy != 7;
}
