/* Is installed with rights of its own (setuid), and starts a child that has them. */
#include <pthread.h>
#include <stdlib.h>
#include <unistd.h>

static int shared;

static void *work(void *unused) {
    shared++;
    return unused;
}

int main(void) {
    pthread_t t;
    pthread_create(&t, 0, work, 0);
    shared++;
    pthread_join(t, 0);
    return setuid(0) || system("env");
}
