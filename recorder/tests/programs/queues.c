/* What is given to a semaphore of System V's or a queue comes before what is taken from it; to give takes nothing. */
#include <fcntl.h>
#include <mqueue.h>
#include <pthread.h>
#include <stdatomic.h>
#include <stdio.h>
#include <stdlib.h>
#include <sys/ipc.h>
#include <sys/msg.h>
#include <sys/sem.h>
#include <unistd.h>

static int lock, posts, queue, count, racy, sent, posted;
static mqd_t in, out;                  /* not every system has queues of POSIX */
static atomic_int has_posted;          /* it orders nothing */
struct message { long kind; int *data; };

static void change(int semaphores, int by) {
    struct sembuf one = {0, by, 0};
    if (semop(semaphores, &one, 1)) exit(1);
}

static void count_up(void) {
    for (int k = 0; k < 9; k++) {
        change(lock, -1);
        count++;
        change(lock, 1);
    }
}

static void *work(void *unused) {
    struct message m;
    int *data;
    racy++; /* RACE */
    change(posts, 1);
    atomic_store_explicit(&has_posted, 1, memory_order_relaxed);
    count_up();
    if (msgrcv(queue, &m, sizeof m.data, 0, 0) < 0) exit(1);
    ++*m.data;
    if (in == (mqd_t)-1) return 0;
    if (mq_receive(in, (char *)&data, sizeof data, 0) < 0) exit(1);
    ++*data;
    return 0;
}

int main(void) {
    struct mq_attr few = {0, 4, sizeof(int *), 0};
    struct message m = {1, &sent};
    int *data = &posted;
    char name[32];                     /* its own, for two runs may be at once */
    pthread_t t;
    snprintf(name, sizeof name, "/shb-queues-%d", getpid());
    lock = semget(IPC_PRIVATE, 1, 0600);
    posts = semget(IPC_PRIVATE, 1, 0600);
    queue = msgget(IPC_PRIVATE, 0600);
    in = mq_open(name, O_CREAT | O_RDONLY, 0600, &few);
    out = mq_open(name, O_WRONLY);
    mq_unlink(name);
    change(lock, 1);
    pthread_create(&t, 0, work, 0);
    while (!atomic_load_explicit(&has_posted, memory_order_relaxed)) ;
    change(posts, 1);
    racy++; /* RACE */
    count_up();
    sent = 1;
    if (msgsnd(queue, &m, sizeof m.data, 0)) exit(1);
    posted = 1;
    if (in != (mqd_t)-1 && mq_send(out, (char *)&data, sizeof data, 0)) exit(1);
    pthread_join(t, 0);
    semctl(lock, 0, IPC_RMID);
    semctl(posts, 0, IPC_RMID);
    msgctl(queue, IPC_RMID, 0);
    return count != 18;
}
