/* A thread waits for tokens that a handler of a signal posts, which main sends to it. */
#define _GNU_SOURCE
#include <pthread.h>
#include <semaphore.h>
#include <signal.h>
#include <stdatomic.h>

enum { ROUNDS = 100 };
static sem_t tokens;
static atomic_int posted, has_begun;

static void post(int signal) {
    atomic_fetch_add(&posted, 1);
    sem_post(&tokens);
}

static void *work(void *unused) {
    atomic_store(&has_begun, 1);
    for (int round = 0; round < ROUNDS; round++)
        while (sem_wait(&tokens)) ;
    return unused;
}

int main(void) {
    pthread_t worker;
    struct sigaction action = {.sa_handler = post, .sa_flags = SA_RESTART};
    sem_init(&tokens, 0, 0);
    sigaction(SIGUSR1, &action, 0);
    pthread_create(&worker, 0, work, 0);
    while (!atomic_load(&has_begun)) ;
    for (int round = 0; round < ROUNDS; round++) {
        pthread_kill(worker, SIGUSR1);
        while (atomic_load(&posted) <= round) ;
    }
    return pthread_join(worker, 0);
}
