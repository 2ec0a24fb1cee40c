/* Two threads, each with a lock that the other wants.  Each writes a point when it has its first. */
#include <pthread.h>
#include <unistd.h>
pthread_mutex_t locks[2] = {PTHREAD_MUTEX_INITIALIZER, PTHREAD_MUTEX_INITIALIZER};
pthread_barrier_t both;
int shared;
void *work(void *first) {
    pthread_mutex_lock(&locks[(long)first]);
    shared++;                                                /* RACE */
    if (write(1, ".", 1) != 1) return 0;
    pthread_barrier_wait(&both);
    pthread_mutex_lock(&locks[!(long)first]);
    return 0;
}
int main(void) {
    pthread_t t, u;
    pthread_barrier_init(&both, 0, 2);
    pthread_create(&t, 0, work, (void *)0);
    pthread_create(&u, 0, work, (void *)1);
    pthread_join(t, 0);
    pthread_join(u, 0);
}
