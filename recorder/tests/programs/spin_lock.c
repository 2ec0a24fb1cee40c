/* A spin lock, whose owner may lose the turn. */
#include <pthread.h>
#include <sched.h>
static pthread_spinlock_t lock;
int count, racy;
static void *work(void *p) {
    racy++; /* RACE */
    for (int k = 0; k < 300; k++) {
        pthread_spin_lock(&lock);
        count++;
        if (k % 50 == 0) sched_yield();
        count++;
        pthread_spin_unlock(&lock);
    }
    return p;
}
int main(void) {
    pthread_t t[3];
    pthread_spin_init(&lock, 0);
    for (int k = 0; k < 3; k++) pthread_create(&t[k], 0, work, 0);
    for (int k = 0; k < 3; k++) pthread_join(t[k], 0);
    pthread_spin_destroy(&lock);
    return count != 1800;
}
