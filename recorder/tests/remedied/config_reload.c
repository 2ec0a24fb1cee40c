/* The level is reloaded under the lock, and looked at without it. */
#include <pthread.h>
#include <unistd.h>
static struct { pthread_mutex_t lock; int level, version; } config = {.lock = PTHREAD_MUTEX_INITIALIZER};
static void reload(int level) {
    pthread_mutex_lock(&config.lock);
    config.level = level;
    config.version++;
    pthread_mutex_unlock(&config.lock);
}
static int is_logged(int level) {
#ifdef FIXED
    pthread_mutex_lock(&config.lock);
    int is = level <= config.level;
    pthread_mutex_unlock(&config.lock);
    return is;
#else
    return level <= config.level;
#endif
}
static void *run(void *u) {
    int count = 0;
    for (int i = 0; i < 30; i++, usleep(10)) count += is_logged(i % 5);
    return count ? u : 0;
}
int main(void) {
    pthread_t t[2];
    for (int i = 0; i < 2; i++) pthread_create(&t[i], 0, run, 0);
    for (int i = 0; i < 5; i++, usleep(50)) reload(i);
    for (int i = 0; i < 2; i++) pthread_join(t[i], 0);
    return 0;
}
