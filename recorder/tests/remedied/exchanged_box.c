/* A box is filled and emptied by exchanges without an order. */
#include <pthread.h>
#include <unistd.h>
#ifdef FIXED
enum { GIVES = __ATOMIC_RELEASE, TAKES = __ATOMIC_ACQUIRE };
#else
enum { GIVES = __ATOMIC_RELAXED, TAKES = __ATOMIC_RELAXED };
#endif
static int value, *box;
static void *fills(void *u) {
    value = 42;
    __atomic_exchange_n(&box, &value, GIVES);
    return u;
}
static void *empties(void *u) {
    int *found;
    while (!(found = __atomic_exchange_n(&box, 0, TAKES))) usleep(9);
    return (void *)(long)*found;
}
int main(void) {
    pthread_t one, two;
    pthread_create(&one, 0, fills, 0);
    pthread_create(&two, 0, empties, 0);
    pthread_join(one, 0);
    pthread_join(two, 0);
    return 0;
}
