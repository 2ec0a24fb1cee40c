/* A thread waits in each of the calls that often wait, until the main thread has made accesses and wakes it. Words name
   single ways; each that was gone is written. A way that the system doesn't have isn't gone. */
#define _GNU_SOURCE
#include <fcntl.h>
#include <linux/futex.h>
#include <poll.h>
#include <pthread.h>
#include <sched.h>
#include <signal.h>
#include <stdatomic.h>
#include <stdio.h>
#include <stdlib.h>
#include <string.h>
#include <sys/epoll.h>
#include <sys/file.h>
#include <sys/ipc.h>
#include <sys/msg.h>
#include <sys/select.h>
#include <sys/sem.h>
#include <sys/syscall.h>
#include <sys/wait.h>
#include <time.h>
#include <unistd.h>

int __poll_chk(struct pollfd *, nfds_t, int, size_t);
int __ppoll_chk(struct pollfd *, nfds_t, const struct timespec *, const sigset_t *, size_t);

static atomic_int is_ready, is_done, word;
static int shared, ends[2], queue, semaphores, locks[2];
static sigset_t usr1;
static struct message { long kind; char text[8]; } message = {1, "text"};

static void handle(int number) {}

/* ---- how the thread waits: for a byte, for a futex, for the end of a process, for a signal ---- */
static struct pollfd readable(void) { return (struct pollfd){.fd = ends[0], .events = POLLIN}; }
static fd_set only_readable(void) {
    fd_set set;
    FD_ZERO(&set);
    FD_SET(ends[0], &set);
    return set;
}
#define OF_POLL(name, call) static void name(void) { struct pollfd p = readable(); atomic_store(&is_ready, 1); call; }
#define OF_SELECT(name, call) static void name(void) { fd_set s = only_readable(); atomic_store(&is_ready, 1); call; }
OF_POLL(by_poll, poll(&p, 1, -1))
OF_POLL(by_poll_chk, __poll_chk(&p, 1, -1, sizeof p))
OF_POLL(by_ppoll, ppoll(&p, 1, 0, 0))
OF_POLL(by_ppoll_chk, __ppoll_chk(&p, 1, 0, 0, sizeof p))
OF_POLL(by_poll_call, syscall(SYS_poll, &p, 1, -1))
OF_POLL(by_ppoll_call, syscall(SYS_ppoll, &p, 1, 0, 0, 8))
OF_SELECT(by_select, select(ends[0] + 1, &s, 0, 0, 0))
OF_SELECT(by_pselect, pselect(ends[0] + 1, &s, 0, 0, 0, 0))
OF_SELECT(by_select_call, syscall(SYS_select, ends[0] + 1, &s, 0, 0, 0))
OF_SELECT(by_pselect_call, syscall(SYS_pselect6, ends[0] + 1, &s, 0, 0, 0, 0))

static int readable_of_epoll(void) {
    struct epoll_event event = {.events = EPOLLIN};
    int f = epoll_create1(0);
    epoll_ctl(f, EPOLL_CTL_ADD, ends[0], &event);
    return f;
}
#define OF_EPOLL(name, call) \
    static void name(void) { \
        struct epoll_event got; \
        int f = readable_of_epoll(); \
        atomic_store(&is_ready, 1); \
        call; \
        close(f); \
    }
OF_EPOLL(by_epoll_wait, epoll_wait(f, &got, 1, -1))
OF_EPOLL(by_epoll_pwait, epoll_pwait(f, &got, 1, -1, 0))
OF_EPOLL(by_epoll_pwait2, epoll_pwait2(f, &got, 1, 0, 0))
OF_EPOLL(by_epoll_wait_call, syscall(SYS_epoll_wait, f, &got, 1, -1))
OF_EPOLL(by_epoll_pwait_call, syscall(SYS_epoll_pwait, f, &got, 1, -1, 0, 8))
static void send_byte(void) { write(ends[1], "x", 1); }

#define OF_FUTEX(name, ...) \
    static void name(void) { atomic_store(&is_ready, 1); while (!atomic_load(&word)) syscall(SYS_futex, &word, __VA_ARGS__); }
OF_FUTEX(by_futex, FUTEX_WAIT_PRIVATE, 0, 0, 0, 0)
OF_FUTEX(by_futex_of_bits, FUTEX_WAIT_BITSET_PRIVATE, 0, 0, 0, FUTEX_BITSET_MATCH_ANY)
static void wake_futex(void) {
    atomic_store(&word, 1);
    syscall(SYS_futex, &word, FUTEX_WAKE_PRIVATE, 1, 0, 0, 0);
}

/* Loops without a call: of loads of a value that the thread wrote itself, and of exchanges that leave it as it is. */
#define OF_LOOP(name, word_now) static void name(void) { atomic_store(&word, 0); atomic_store(&is_ready, 1); while (!(word_now)) ; }
OF_LOOP(by_loads, atomic_load(&word))
OF_LOOP(by_exchanges, atomic_exchange(&word, 0))
static void set_word(void) { atomic_store(&word, 1); }

/* A process that ends when a byte comes. */
#define OF_PROCESS(name, call) \
    static void name(void) { \
        char byte; \
        pid_t child = fork(); \
        siginfo_t how; \
        if (!child) { \
            read(ends[0], &byte, 1); \
            _exit(0); \
        } \
        atomic_store(&is_ready, 1); \
        call; \
    }
OF_PROCESS(by_wait, wait(0))
OF_PROCESS(by_wait3, wait3(0, 0, 0))
OF_PROCESS(by_wait4, wait4(child, 0, 0, 0))
OF_PROCESS(by_waitpid, waitpid(child, 0, 0))
OF_PROCESS(by_waitid, waitid(P_PID, child, &how, WEXITED))
OF_PROCESS(by_wait4_call, syscall(SYS_wait4, child, 0, 0, 0))
OF_PROCESS(by_waitid_call, syscall(SYS_waitid, P_PID, child, &how, WEXITED, 0))

/* Signals come until one has met the thread in its call. */
#define OF_SIGNAL(name, call) static void name(void) { int got; siginfo_t how; atomic_store(&is_ready, 1); call; atomic_store(&is_done, 1); }
OF_SIGNAL(by_sigwait, sigwait(&usr1, &got))
OF_SIGNAL(by_sigwaitinfo, sigwaitinfo(&usr1, &how))
OF_SIGNAL(by_sigtimedwait, sigtimedwait(&usr1, &how, 0))
OF_SIGNAL(by_sigtimedwait_call, syscall(SYS_rt_sigtimedwait, &usr1, &how, 0, 8))
OF_SIGNAL(by_sigsuspend, sigset_t none; sigemptyset(&none); sigsuspend(&none))
static void unblocked(int how) { pthread_sigmask(how, &usr1, 0); }
OF_SIGNAL(by_pause, unblocked(SIG_UNBLOCK); pause(); unblocked(SIG_BLOCK))
OF_SIGNAL(by_pause_call, unblocked(SIG_UNBLOCK); syscall(SYS_pause); unblocked(SIG_BLOCK))

#define OF_QUEUE(name, call) static void name(void) { struct message got; atomic_store(&is_ready, 1); call; }
OF_QUEUE(by_msgrcv, msgrcv(queue, &got, sizeof got.text, 0, 0))
OF_QUEUE(by_msgrcv_call, syscall(SYS_msgrcv, queue, &got, sizeof got.text, 0, 0))
static void send_message(void) { msgsnd(queue, &message, sizeof message.text, 0); }

static struct sembuf change_of(int n) { return (struct sembuf){.sem_op = n}; }
#define OF_SEMAPHORE(name, call) static void name(void) { struct sembuf less = change_of(-1); atomic_store(&is_ready, 1); call; }
OF_SEMAPHORE(by_semop, semop(semaphores, &less, 1))
OF_SEMAPHORE(by_semtimedop, semtimedop(semaphores, &less, 1, 0))
OF_SEMAPHORE(by_semop_call, syscall(SYS_semop, semaphores, &less, 1))
static void post(void) {
    struct sembuf more = change_of(1);
    semop(semaphores, &more, 1);
}

static void by_flock(void) {
    atomic_store(&is_ready, 1);
    flock(locks[1], LOCK_EX);
    flock(locks[1], LOCK_UN);
}
static void unlock_file(void) { flock(locks[0], LOCK_UN); }

/* ---- */
static pthread_t waiter;
static void send_signals(void) {
    while (!atomic_load(&is_done)) {
        pthread_kill(waiter, SIGUSR1);
        shared++;
        usleep(100);
    }
}

static int has_queue(void) { return (queue = msgget(IPC_PRIVATE, 0600)) >= 0; }
static int has_semaphores(void) { return (semaphores = semget(IPC_PRIVATE, 1, 0600)) >= 0; }
static int has_locks(void) {
    locks[0] = open("/proc/self/exe", O_RDONLY);
    locks[1] = open("/proc/self/exe", O_RDONLY);
    return !flock(locks[0], LOCK_EX);
}

static const struct way { const char *name; void (*wait)(void), (*wake)(void); int (*is_there)(void); } ways[] = {
#define WAY(name, wake, ...) {#name, by_##name, wake, ##__VA_ARGS__}
    WAY(poll, send_byte), WAY(poll_chk, send_byte), WAY(ppoll, send_byte), WAY(ppoll_chk, send_byte),
    WAY(poll_call, send_byte), WAY(ppoll_call, send_byte), WAY(select, send_byte), WAY(pselect, send_byte),
    WAY(select_call, send_byte), WAY(pselect_call, send_byte), WAY(epoll_wait, send_byte), WAY(epoll_pwait, send_byte),
    WAY(epoll_pwait2, send_byte), WAY(epoll_wait_call, send_byte), WAY(epoll_pwait_call, send_byte),
    WAY(futex, wake_futex), WAY(futex_of_bits, wake_futex), WAY(loads, set_word), WAY(exchanges, set_word),
    WAY(wait, send_byte), WAY(wait3, send_byte), WAY(wait4, send_byte), WAY(waitpid, send_byte), WAY(waitid, send_byte),
    WAY(wait4_call, send_byte), WAY(waitid_call, send_byte),
    WAY(sigwait, send_signals), WAY(sigwaitinfo, send_signals), WAY(sigtimedwait, send_signals), WAY(sigtimedwait_call, send_signals),
    WAY(sigsuspend, send_signals), WAY(pause, send_signals), WAY(pause_call, send_signals),
    WAY(msgrcv, send_message, has_queue), WAY(msgrcv_call, send_message, has_queue),
    WAY(semop, post, has_semaphores), WAY(semtimedop, post, has_semaphores), WAY(semop_call, post, has_semaphores),
    WAY(flock, unlock_file, has_locks),
};

static void *run(void *way) {
    ((const struct way *)way)->wait();
    return 0;
}

static void go(const struct way *way) {
    is_ready = is_done = word = 0;
    queue = semaphores = -1;
    if (way->is_there && !way->is_there()) return;
    pipe(ends);
    pthread_create(&waiter, 0, run, (void *)way);
    while (!atomic_load(&is_ready)) sched_yield();
    shared = 1;                        /* the waiter had the turn at its last hook */
    way->wake();
    pthread_join(waiter, 0);
    close(ends[0]);
    close(ends[1]);
    if (queue >= 0) msgctl(queue, IPC_RMID, 0);
    if (semaphores >= 0) semctl(semaphores, 0, IPC_RMID);
    printf("%s\n", way->name);
    fflush(stdout);
}

static int is_named(const char *name, int count, char **words) {
    for (int i = 1; i < count; i++)
        if (!strcmp(words[i], name)) return 1;
    return count < 2;
}

int main(int count, char **words) {
    sigemptyset(&usr1);
    sigaddset(&usr1, SIGUSR1);
    signal(SIGUSR1, handle);
    pthread_sigmask(SIG_BLOCK, &usr1, 0);
    for (size_t i = 0; i < sizeof ways / sizeof *ways; i++)
        if (is_named(ways[i].name, count, words)) go(&ways[i]);
}
