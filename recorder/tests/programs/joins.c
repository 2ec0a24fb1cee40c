/* Each way to join a thread orders what it did. */
#define _GNU_SOURCE
#include <pthread.h>
#include <time.h>
#include <unistd.h>

static int done;
static void *work(void *unused) {
    done++;
    return 0;
}

static pthread_t start(void) {
    pthread_t t;
    pthread_create(&t, 0, work, 0);
    return t;
}

static struct timespec in_a_minute(clockid_t clock) {
    struct timespec time;
    clock_gettime(clock, &time);
    time.tv_sec += 60;
    return time;
}

int main(void) {
    struct timespec by_clock = in_a_minute(CLOCK_MONOTONIC), by_time = in_a_minute(CLOCK_REALTIME);
    pthread_join(start(), 0);
    done++;
    pthread_clockjoin_np(start(), 0, CLOCK_MONOTONIC, &by_clock);
    done++;
    pthread_timedjoin_np(start(), 0, &by_time);
    done++;
    pthread_t t = start();
    while (pthread_tryjoin_np(t, 0)) usleep(100);
    done++;
    return done != 8;
}
