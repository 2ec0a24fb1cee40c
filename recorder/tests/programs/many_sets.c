/* One line writes under each of many sets of locks, again and again, and then another thread reads. */
#include <pthread.h>
#include <unistd.h>

enum { LOCKS = 24, ROUNDS = 20 };
static pthread_mutex_t locks[LOCKS], outer = PTHREAD_MUTEX_INITIALIZER;
int shared, seen;

__attribute__((noinline)) static void add(void) {
    shared++; /* RACE */
}

static void *work(void *unused) {
    for (int k = 0; k < LOCKS * ROUNDS; k++) {
        int is_in_both = k / LOCKS % 2;
        if (is_in_both) pthread_mutex_lock(&outer);
        pthread_mutex_lock(&locks[k % LOCKS]);
        add();
        pthread_mutex_unlock(&locks[k % LOCKS]);
        if (is_in_both) pthread_mutex_unlock(&outer);
    }
    return unused;
}

int main(void) {
    pthread_t thread;
    for (int k = 0; k < LOCKS; k++) pthread_mutex_init(&locks[k], 0);
    pthread_create(&thread, 0, work, 0);
    usleep(100000);
    seen = shared; /* RACE */
    pthread_join(thread, 0);
    return 0;
}
