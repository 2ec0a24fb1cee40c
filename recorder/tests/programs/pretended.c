/* Functions of a header that is taken for the system's, in each other: each call of the outermost is a place of its own. */
#include <pthread.h>
#include <stdatomic.h>
static int shared;
static atomic_int is_done; /* it orders nothing */
static int outer(int *p);
static int below(int depth) { return depth ? below(depth - 1) + 1 : outer(&shared); } // READ
static void *work(void *unused) {
    int sum = 0;
    for (int k = 0; k < 9; k++) {
        sum += outer(&shared); // READ
        sum += outer(&shared); // READ
        sum += below(k);
    }
    atomic_store_explicit(&is_done, 1, memory_order_relaxed);
    return sum == 99 ? unused : 0;
}
int main(void) {
    pthread_t t;
    pthread_create(&t, 0, work, 0);
    while (!atomic_load_explicit(&is_done, memory_order_relaxed)) ;
    shared = 1; // WRITE
    return pthread_join(t, 0);
}
# 1 "/usr/include/pretended.h"
__attribute__((noinline)) static int inner(volatile int *p) { return *p; }
__attribute__((noinline)) static int middle(int *p) { return inner(p) + 1; }
__attribute__((noinline)) static int outer(int *p) { return middle(p) + 1; }
