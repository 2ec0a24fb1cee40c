/* Limits that a program sets on itself: they may end the recording and not the program, and nothing here
   counts in them. And what else a program asks of the system by prctl. */
#include "runtime.h"
#include <sched.h>
#include <sys/prctl.h>

/* With the turn, so nobody uses the cells. */
static void end_with(const char *reason) {
    stop_recording(reason);
    give_back_room();
    end_cells();
}

/* The record takes address space, of which only what is in use counts where the program locks its own. */
PUBLIC int mlockall(int flags) {
    int error = REAL(mlockall)(flags);
    if (!error) unlock_record();
    thread *t = error && errno == ENOMEM && recording ? enter(NEVER_YIELD) : 0;
    if (t) {
        end_with("the program locks its memory (mlockall), and the record takes more than it may lock");
        leave(t);
        error = REAL(mlockall)(flags);
    }
    return error;
}

/* ---- a limit of the addresses: the record is to leave the program most of them ---- */
static void will_limit(int resource, uint64_t addresses) {
    thread *t = resource == RLIMIT_AS && recording ? enter(NEVER_YIELD) : 0;
    if (!t) return;
    if (!limit_record(addresses))
        end_with("the program limits its address space (RLIMIT_AS), and the record takes more than a quarter "
                 "of it");
    leave(t);
}

PUBLIC int setrlimit(__rlimit_resource_t resource, const struct rlimit *limit) {
    will_limit(resource, limit->rlim_cur);
    return REAL(setrlimit)(resource, limit);
}
PUBLIC int prlimit(pid_t id, enum __rlimit_resource resource, const struct rlimit *new, struct rlimit *old) {
    if (!id || id == getpid()) will_limit(resource, new ? new->rlim_cur : RLIM_INFINITY);
    return REAL(prlimit)(id, resource, new, old);
}
PUBLIC int setrlimit64(__rlimit_resource_t, const struct rlimit64 *) __attribute__((alias("setrlimit")));
PUBLIC int prlimit64(pid_t, enum __rlimit_resource, const struct rlimit64 *,
                     struct rlimit64 *) __attribute__((alias("prlimit")));

/* ---- seccomp: a system call of ours that isn't allowed may kill the program ---- */
static void will_limit_calls(void) { stop_recording("the program limits its system calls (seccomp)"); }

WRAPS(int, prctl, (int option, word a, word b, word c, word d)) {
    if (option == PR_SET_SECCOMP) will_limit_calls();
    int result = REAL_AS(prctl)(option, a, b, c, d);
    if (option == PR_SET_NAME && !result) note_name(pthread_self(), (const char *)a);
    return result;
}

/* ---- calls without a function of their own ---- */
enum { LOCK_PI2 = 13, EPOLL_PWAIT2 = 441, FUTEX_WAITV = 449 };          /* older headers don't name these */

static int is_waiting_futex(int operation) {
    switch (operation & FUTEX_CMD_MASK) {
    case FUTEX_WAIT: case FUTEX_WAIT_BITSET: case FUTEX_WAIT_REQUEUE_PI:
    case FUTEX_LOCK_PI: case LOCK_PI2: return 1;
    default: return 0;
    }
}

/* Does it often wait?  As the functions of waits.c; locks of the program's own wait by a futex. */
static int often_waits(long number, long second) {
    switch (number) {
    case SYS_futex: return is_waiting_futex(second);
    case SYS_sched_yield: case SYS_pause: case SYS_rt_sigsuspend: case SYS_rt_sigtimedwait:
    case SYS_nanosleep: case SYS_clock_nanosleep: case SYS_flock:
    case SYS_poll: case SYS_ppoll: case SYS_select: case SYS_pselect6:
    case SYS_epoll_wait: case SYS_epoll_pwait: case EPOLL_PWAIT2: case FUTEX_WAITV:
    case SYS_wait4: case SYS_waitid: case SYS_msgrcv: case SYS_msgsnd: case SYS_semop: case SYS_semtimedop:
    case SYS_mq_timedreceive: case SYS_mq_timedsend: case SYS_io_getevents: case SYS_io_uring_enter: return 1;
    default: return 0;
    }
}

/* Who was woken, or found another word, has what was stored there: code without hooks takes locks so. */
static void note_waited(const void *word, long result, uint64_t caller) {
    uint64_t inside = sizeof(int) | __ATOMIC_ACQUIRE << ATOMIC_SIZE_BITS;
    if (others && (!result || result == -EAGAIN))
        note_bytes(YIELDS_BY_LIST, OP_ATOMIC_LOAD, word, inside, caller);
}

WRAPS(long, syscall, (long number, word a, word b, word c, word d, word e, word f)) {
    long result;
    if (number == SYS_seccomp) will_limit_calls();
    if (often_waits(number, b)) let_others_run();
    register word r10 __asm__("r10") = d, r8 __asm__("r8") = e, r9 __asm__("r9") = f;
    __asm__ volatile("syscall" : "=a"(result)
                     : "a"(number), "D"(a), "S"(b), "d"(c), "r"(r10), "r"(r8), "r"(r9) : "rcx", "r11",
                     "memory");
    if (number == SYS_futex && is_waiting_futex(b)) note_waited((void *)a, result, CALLER);
    if (!result && (number == SYS_fork || (number == SYS_clone && !(a & CLONE_VM)))) begin_child();
    if (result >= 0 || result < -4095) return result;
    errno = -result;
    return -1;
}
