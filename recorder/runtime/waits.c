/* Calls that often wait. */
#include "runtime.h"
#include <sys/sem.h>

/* ---- calls that often block; one that is not here keeps the turn until a waiter finds it asleep ---- */
void let_others_run(void) {
    thread *t = self;
    if (!t || !recording || t->inside) return;
    end_copy(t);
    begin_inside(t);
    give_turn(t);
    leave(t);
}
#define BLOCKS(name) \
    WRAPS(word, name, (word a, word b, word c, word d, word e, word f)) { \
        let_others_run(); \
        return REAL_AS(name)(a, b, c, d, e, f); \
    }
BLOCKS(sched_yield) BLOCKS(thrd_yield) BLOCKS(thrd_sleep) BLOCKS(nanosleep) BLOCKS(clock_nanosleep)
BLOCKS(usleep) BLOCKS(sleep) BLOCKS(pause) BLOCKS(select) BLOCKS(pselect)
BLOCKS(flock)
/* for processes and for signals */
BLOCKS(wait) BLOCKS(wait3) BLOCKS(wait4) BLOCKS(waitid) BLOCKS(waitpid)
BLOCKS(sigsuspend) BLOCKS(sigwait) BLOCKS(sigwaitinfo) BLOCKS(sigtimedwait)

/* ---- System V's semaphores, and queues: what gives comes before what takes, as with POSIX' ---- */
enum { GIVES = 1, TAKES = 2 };

static int effect_of(const struct sembuf *p, size_t n) {     /* to wait for 0 is to take */
    struct sembuf changes[500];        /* the kernel takes no more, unless it is told to */
    int effect = 0;
    if (n > sizeof changes / sizeof *changes) return GIVES | TAKES;
    if (!copy_in(changes, p, n * sizeof *p)) return 0;
    for (size_t k = 0; k < n; k++) effect |= changes[k].sem_op > 0 ? GIVES : TAKES;
    return effect;
}

/* A queue may be opened by its name more than once. */
static unsigned queue_of(int q) {
    struct stat status;
    return syscall(SYS_fstat, q, &status) ? 0 : status.st_ino;
}

#define IN_KERNEL(kind, number) \
    ((void *)(FIRST_DESCRIPTOR + (kind##ul << KIND_OF_OBJECT) + (uint64_t)(unsigned)(number) * 16))
/* Whether it failed is told by the half that an int has. */
#define GIVES_AND_TAKES(name, effect_, object_) \
    WRAPS(word, name, (int q, void *p, word n, word d, word e)) { \
        int effect = others && recording ? effect_ : 0; \
        void *object = effect ? object_ : 0; \
        if (effect & GIVES) note(OP_POST, object, CALLER); \
        let_others_run(); \
        word r = REAL_AS(name)(q, p, n, d, e); \
        if (effect & TAKES && (int)r != -1) note(OP_WAIT, object, CALLER); \
        return r; \
    }
GIVES_AND_TAKES(semop, effect_of(p, n), IN_KERNEL(1, q))
GIVES_AND_TAKES(semtimedop, effect_of(p, n), IN_KERNEL(1, q))
GIVES_AND_TAKES(msgsnd, GIVES, IN_KERNEL(2, q))
GIVES_AND_TAKES(msgrcv, TAKES, IN_KERNEL(2, q))
GIVES_AND_TAKES(mq_send, GIVES, IN_KERNEL(3, queue_of(q)))
GIVES_AND_TAKES(mq_timedsend, GIVES, IN_KERNEL(3, queue_of(q)))
GIVES_AND_TAKES(mq_receive, TAKES, IN_KERNEL(3, queue_of(q)))
GIVES_AND_TAKES(mq_timedreceive, TAKES, IN_KERNEL(3, queue_of(q)))
