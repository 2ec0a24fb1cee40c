/* A counter without a lock, in a loop: the threads may change places after its read and after its write. */
#include <pthread.h>
enum { STEPS = 100000 };
volatile long count;
volatile int begun[2];                 /* each waits for the other, so that neither is through before */
static void *work(void *me) {
    begun[(long)me] = 1;
    while (!begun[!me]) ;
    for (int i = 0; i < STEPS; i++) count++;
    return 0;
}
int main(void) {
    pthread_t a, b;
    pthread_create(&a, 0, work, 0);
    pthread_create(&b, 0, work, (void *)1);
    pthread_join(a, 0);
    pthread_join(b, 0);
    return 0;
}
