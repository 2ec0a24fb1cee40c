/* One path adds atomically, the other with ++. */
#include <pthread.h>
static long served;
static void *fast(void *u) {
    for (int i = 0; i < 20; i++) __atomic_fetch_add(&served, 1, __ATOMIC_RELAXED);
    return u;
}
static void *slow(void *u) {
    for (int i = 0; i < 20; i++) {
#ifdef FIXED
        __atomic_fetch_add(&served, 1, __ATOMIC_RELAXED);
#else
        served++;
#endif
        sched_yield();
    }
    return u;
}
int main(void) {
    pthread_t a, b;
    pthread_create(&a, 0, fast, 0);
    pthread_create(&b, 0, slow, 0);
    pthread_join(a, 0);
    return pthread_join(b, 0);
}
