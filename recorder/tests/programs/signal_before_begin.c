/* A signal of the process waits for a thread that takes it, and comes in the new one at its first instruction. */
#define _GNU_SOURCE
#include <pthread.h>
#include <signal.h>
#include <unistd.h>

static int count;
static volatile sig_atomic_t came;

static void handle(int signal) {
    count++; /* RACE */
    came = 1;
}

static void *work(void *unused) {
    sigset_t now;
    while (!came) ;
    pthread_sigmask(SIG_SETMASK, 0, &now);
    return sigismember(&now, SIGUSR1) ? (void *)1 : unused;
}

int main(void) {
    pthread_t worker;
    pthread_attr_t attributes;
    sigset_t none, one;
    void *result;
    struct sigaction action = {.sa_handler = handle};
    sigemptyset(&none);
    sigemptyset(&one);
    sigaddset(&one, SIGUSR1);
    sigaction(SIGUSR1, &action, 0);
    pthread_sigmask(SIG_BLOCK, &one, 0);
    kill(getpid(), SIGUSR1);
    pthread_attr_init(&attributes);
    pthread_attr_setsigmask_np(&attributes, &none);
    pthread_create(&worker, &attributes, work, 0);
    count++; /* RACE */
    pthread_join(worker, &result);
    return result != 0;
}
