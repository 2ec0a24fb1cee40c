/* A helper formats into a static buffer. */
#include <pthread.h>
#include <stdio.h>
#include <string.h>
#ifdef FIXED
static pthread_mutex_t lock = PTHREAD_MUTEX_INITIALIZER;
#define LOCK() pthread_mutex_lock(&lock)
#define UNLOCK() pthread_mutex_unlock(&lock)
#else
#define LOCK()
#define UNLOCK()
#endif
static char text[32];
static const char *name_of(int n) {
    text[0] = 'a' + n;
    text[1] = 0;
    return text;
}
static void *run(void *u) {
    size_t sum = 0;
    for (int i = 0; i < 20; i++) {
        LOCK();
        sum += strlen(name_of(i % 20));
        UNLOCK();
    }
    return sum ? u : 0;
}
int main(void) {
    pthread_t t[2];
    for (int i = 0; i < 2; i++) pthread_create(&t[i], 0, run, 0);
    for (int i = 0; i < 2; i++) pthread_join(t[i], 0);
    return 0;
}
