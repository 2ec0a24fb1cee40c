/* Go's list: a watchdog's time stamp, written and read plainly. */
#include <pthread.h>
static volatile long last;
static void *keep_alive(void *u) {
    last = 5;
    return u;
}
int main(void) {
    pthread_t t;
    pthread_create(&t, 0, keep_alive, 0);
    long seen = last;
    pthread_join(t, 0);
    return seen == 9;
}
