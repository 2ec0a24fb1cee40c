/* Two threads attach shared memory of their own, one after the other at one address: it is other variables. In
   what both have there is a race. */
#include <pthread.h>
#include <stdatomic.h>
#include <stdlib.h>
#include <sched.h>
#include <sys/ipc.h>
#include <sys/shm.h>

static _Atomic(int *) detached;
static int *both;

static int *attach(void *at) {
    int id = shmget(IPC_PRIVATE, 3 * sizeof(int), IPC_CREAT | 0600);
    int *p = shmat(id, at, 0);
    if (p == (void *)-1 || shmctl(id, IPC_RMID, 0)) abort();
    return p;
}

static void use(int *p) {
    p[2] = 7;
    if (p[2] != 7 || p[1] || shmdt(p)) abort();
}

static void *first(void *unused) {
    int *p = attach(0);
    both[2] = 1; /* RACE */
    use(p);
    atomic_store_explicit(&detached, p, memory_order_relaxed);
    return 0;
}

static void *second(void *unused) {
    int *p;
    while (!(p = atomic_load_explicit(&detached, memory_order_relaxed))) sched_yield();
    if (attach(p) != p) abort();
    use(p);
    both[2] = 2; /* RACE */
    return 0;
}

int main(void) {
    pthread_t t, u;
    both = attach(0);
    pthread_create(&t, 0, first, 0);
    pthread_create(&u, 0, second, 0);
    pthread_join(t, 0);
    pthread_join(u, 0);
    return shmdt(both);
}
