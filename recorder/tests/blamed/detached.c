/* A detached thread writes what main reads at its end, without waiting. */
#include <pthread.h>
#include <unistd.h>
static int result;
static void *work(void *u) {
    result = 3;
    return u;
}
int main(void) {
    pthread_t t;
    pthread_create(&t, 0, work, 0);
    pthread_detach(t);
    usleep(20000);
    return result == 9;
}
