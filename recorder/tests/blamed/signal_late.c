/* helgrind's manual: the condition is signalled under the lock, and the data is written after it. */
#include <pthread.h>
static pthread_mutex_t m = PTHREAD_MUTEX_INITIALIZER;
static pthread_cond_t c = PTHREAD_COND_INITIALIZER;
static int go, data;
static void *consumer(void *u) {
    pthread_mutex_lock(&m);
    while (!go) pthread_cond_wait(&c, &m);
    int found = data;
    pthread_mutex_unlock(&m);
    return found == 9 ? u : 0;
}
int main(void) {
    pthread_t t;
    pthread_create(&t, 0, consumer, 0);
    pthread_mutex_lock(&m);
    go = 1;
    pthread_cond_signal(&c);
    pthread_mutex_unlock(&m);
    data = 1;
    pthread_join(t, 0);
    return 0;
}
