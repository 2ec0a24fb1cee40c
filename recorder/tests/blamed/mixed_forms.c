/* Two fields of one object race at one line: one has a lock that this line lacks, the other none at all. */
#include <pthread.h>
static struct { pthread_mutex_t m; long a, b; } it = {PTHREAD_MUTEX_INITIALIZER, 0, 0};
static void *work(void *u) {
    pthread_mutex_lock(&it.m);
    it.a++;
    pthread_mutex_unlock(&it.m);
    it.b++;
    return u;
}
int main(void) {
    pthread_t t;
    pthread_create(&t, 0, work, 0);
    long seen = it.a + it.b;
    pthread_join(t, 0);
    return seen == 9;
}
