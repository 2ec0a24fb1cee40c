/* Functions of which the C library has an old version, too, and one that is in no shared library. */
#define _GNU_SOURCE
#include <pthread.h>
#include <regex.h>
#include <stdio.h>
#include <stdlib.h>
#include <string.h>
#include <time.h>

static pthread_mutex_t lock = PTHREAD_MUTEX_INITIALIZER;
static pthread_cond_t *condition;
static int is_ready, shared;

static void says_bye(void) { puts("bye"); }

static void *work(void *unused) {
    shared++;                                                /* RACE */
    pthread_mutex_lock(&lock);
    is_ready = 1;
    pthread_cond_signal(condition);
    pthread_mutex_unlock(&lock);
    return 0;
}

/* In a block that was used before, by a clock of its own: a wait of 10 seconds is not over at once. */
static int waits_for_work(void) {
    pthread_condattr_t by_clock;
    struct timespec deadline;
    int error = 0;
    pthread_condattr_init(&by_clock);
    if (pthread_condattr_setclock(&by_clock, CLOCK_MONOTONIC)) return 1;
    condition = malloc(sizeof *condition);
    memset(condition, 0x55, sizeof *condition);
    if (pthread_cond_init(condition, &by_clock)) return 1;
    pthread_t t;
    pthread_create(&t, 0, work, 0);
    shared++;                                                /* RACE */
    pthread_mutex_lock(&lock);
    clock_gettime(CLOCK_MONOTONIC, &deadline);
    deadline.tv_sec += 10;
    while (!is_ready && !error) error = pthread_cond_timedwait(condition, &lock, &deadline);
    pthread_mutex_unlock(&lock);
    pthread_join(t, 0);
    return error;
}

int main(void) {
    regex_t pattern;
    regmatch_t part = {0, 2};
    atexit(says_bye);
    if (waits_for_work()) puts("the wait");
    if (!realpath(".", 0)) puts("realpath");
    if (regcomp(&pattern, "b", 0) || !regexec(&pattern, "aab", 1, &part, REG_STARTEND)) puts("regexec");
    return 0;
}
