/* Forks while a thread is at what is done once: the child does that anew. */
#include <pthread.h>
#include <semaphore.h>
#include <sys/wait.h>
#include <unistd.h>

static pthread_once_t once = PTHREAD_ONCE_INIT;
static sem_t begun, forked;
static int parent, made;

static void make(void) {
    if (getpid() == parent) sem_post(&begun), sem_wait(&forked);
    made++;
}

static void *work(void *unused) {
    pthread_once(&once, make);
    return unused;
}

int main(void) {
    pthread_t t;
    int status;
    parent = getpid();
    pthread_create(&t, 0, work, 0);
    sem_wait(&begun);
    pid_t child = fork();
    if (!child) {
        work(0);
        _exit(made != 1);
    }
    if (waitpid(child, &status, 0) != child || status) return 1;
    sem_post(&forked);
    work(0);
    return pthread_join(t, 0) || made != 1;
}
