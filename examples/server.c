/* A server that doesn't end by itself: two threads count requests without a lock. */
#include <pthread.h>
#include <unistd.h>

static long served;

static void *serve(void *unused) {
    for (;;) {
        served++;
        usleep(1000);
    }
    return unused;
}

int main(void) {
    pthread_t other;
    pthread_create(&other, NULL, serve, NULL);
    serve(NULL);
    return 0;
}
