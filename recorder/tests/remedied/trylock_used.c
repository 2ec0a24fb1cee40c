/* The answer of trylock isn't looked at. */
#include <pthread.h>
static pthread_mutex_t lock = PTHREAD_MUTEX_INITIALIZER;
static long total;
static void *add(void *u) {
    for (int i = 0; i < 60; i++) {
#ifdef FIXED
        int has = !pthread_mutex_lock(&lock);
#else
        int has = !pthread_mutex_trylock(&lock);
#endif
        total++;
        if (has) pthread_mutex_unlock(&lock);
    }
    return u;
}
int main(void) {
    pthread_t t[3];
    for (int i = 0; i < 3; i++) pthread_create(&t[i], 0, add, 0);
    for (int i = 0; i < 3; i++) pthread_join(t[i], 0);
    return 0;
}
