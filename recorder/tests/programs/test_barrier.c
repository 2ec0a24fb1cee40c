/* The barrier of ThreadSanitizer's own tests has four bytes: those beside it are the program's. */
#include <pthread.h>
void __tsan_testonly_barrier_init(unsigned *, unsigned), __tsan_testonly_barrier_wait(unsigned *);
static struct { unsigned barrier; volatile int beside; } two;
static volatile int x;
static void *work(void *is_first) {
    if (!is_first) __tsan_testonly_barrier_wait(&two.barrier);
    if (!is_first) x = 2;                                    /* RACE */
    if (is_first) x = 1;                                     /* RACE */
    if (is_first) two.beside = 7;
    if (is_first) __tsan_testonly_barrier_wait(&two.barrier);
    return 0;
}
int main(void) {
    pthread_t t[2];
    __tsan_testonly_barrier_init(&two.barrier, 2);
    for (long i = 0; i < 2; i++) pthread_create(&t[i], 0, work, (void *)i);
    for (int i = 0; i < 2; i++) pthread_join(t[i], 0);
    return two.beside != 7;
}
