/* A timer calls a function in a thread that the C library makes. */
#include <pthread.h>
#include <semaphore.h>
#include <signal.h>
#include <time.h>

static sem_t called;
static void tick(union sigval unused) { sem_post(&called); }

int main(void) {
    timer_t timer;
    struct sigevent event = {.sigev_notify = SIGEV_THREAD, .sigev_notify_function = tick};
    struct itimerspec soon = {.it_value = {0, 1000000}};
    sem_init(&called, 0, 0);
    if (timer_create(CLOCK_MONOTONIC, &event, &timer) || timer_settime(timer, 0, &soon, 0)) return 1;
    sem_wait(&called);
    timer_delete(timer);
    return 0;
}
