/* Processes that are made without the handlers of fork, in the way of the word, while a thread writes. */
#define _GNU_SOURCE
#include <pthread.h>
#include <sched.h>
#include <signal.h>
#include <stdlib.h>
#include <sys/syscall.h>
#include <sys/wait.h>
#include <unistd.h>
static long counter;
static int over, x;
static char stack[1 << 16] __attribute__((aligned(64)));
static void *count(void *unused) {
    while (!__atomic_load_n(&over, __ATOMIC_RELAXED)) __atomic_fetch_add(&counter, 1, __ATOMIC_RELAXED);
    x++;                                                     /* RACE */
    return 0;
}
static int in_child(void *status) {
    for (int i = 0; i < 5000; i++) __atomic_fetch_add(&counter, 1, __ATOMIC_RELAXED);
    exit((long)status);
}
int main(int words, char **word) {
    pthread_t t;
    int status, bad = 0, way = atoi(word[1]);
    pthread_create(&t, 0, count, 0);
    for (int i = 0; i < 5; i++) {
        pid_t made = way == 0 ? clone(in_child, stack + sizeof stack, SIGCHLD, (void *)7) : way == 1 ? _Fork()
                     : way == 2 ? syscall(SYS_fork) : syscall(SYS_clone, SIGCHLD, 0, 0, 0, 0);
        if (!made) in_child((void *)7);
        bad += waitpid(made, &status, 0) != made || !WIFEXITED(status) || WEXITSTATUS(status) != 7;
    }
    x++;                                                     /* RACE */
    __atomic_store_n(&over, 1, __ATOMIC_RELAXED);
    pthread_join(t, 0);
    return bad;
}
