/* The thread is started before its limit is set. */
#include <pthread.h>
static struct { int limit, used; pthread_t thread; } quota;
static void *use(void *u) {
    quota.used = quota.limit / 2;
    return u;
}
int main(void) {
#ifdef FIXED
    quota.limit = 100;
    pthread_create(&quota.thread, 0, use, 0);
#else
    pthread_create(&quota.thread, 0, use, 0);
    quota.limit = 100;
#endif
    pthread_join(quota.thread, 0);
    return quota.used == 1;
}
