/* A loop is stopped by a plain int. */
#include <pthread.h>
#include <stdatomic.h>
#include <unistd.h>
#ifdef FIXED
static atomic_int stop;
#else
static int stop;
#endif
static long rounds;
static void *spin(void *u) {
    while (!stop && rounds < 100) {
        rounds++;
        usleep(50);
    }
    return u;
}
int main(void) {
    pthread_t t;
    pthread_create(&t, 0, spin, 0);
    usleep(800);
    stop = 1;
    return pthread_join(t, 0);
}
