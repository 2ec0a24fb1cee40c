/* The calls of POSIX, C11 and C++ that order threads. */
#include "ordering.h"
#include <semaphore.h>
#include <threads.h>
#include <unwind.h>

/* BEGINS: makes an object; while there are threads that is a write of it, too. */
#define BEGINS(name, operation, size) \
    IN_TURN(name, if (t && others && !tells_its_own_order(CALLER)) put(t, OP_DESTROY, object, 0, CALLER); \
            if (t) put(t, operation, object, size, CALLER))
/* ENDS: recorded before it; it may wait for those who still use the object. */
#define ENDS(name) \
    ORDERS(word, name) { \
        if (others && !tells_its_own_order(CALLER)) note(OP_DESTROY, object, CALLER); \
        let_others_run(); \
        return CALLED(name); \
    }
#define LOCKS_IN_TIME(name, operation, quick, late) \
    TAKES_IN_TIME(int, name, operation, CALLED(name), r == EBUSY, REAL(quick)(object), \
                  !r || r == EOWNERDEAD, late)
#define LOCKS(name, operation, quick) LOCKS_IN_TIME(name, operation, quick, SLEEPING(t, CALLED(name)))
#define TRIES_LOCK(name, operation) TRIES_BY(int, name, operation, EBUSY, !r || r == EOWNERDEAD)

/* ---- locks ---- */
/* All calls that take one, of which `try` never waits. */
#define LOCKS_IN_ALL_WAYS(type, lock, operation) \
    LOCKS(pthread_##type##_##lock, operation, pthread_##type##_try##lock) \
    LOCKS_IN_TIME(pthread_##type##_timed##lock, operation, pthread_##type##_try##lock, ETIMEDOUT) \
    LOCKS_IN_TIME(pthread_##type##_clock##lock, operation, pthread_##type##_try##lock, ETIMEDOUT) \
    TRIES_LOCK(pthread_##type##_try##lock, operation)
LOCKS_IN_ALL_WAYS(mutex, lock, OP_LOCK)
GIVES(pthread_mutex_unlock, OP_UNLOCK)
BEGINS(pthread_mutex_init, OP_LOCK_INIT, 0)
ENDS(pthread_mutex_destroy)

LOCKS_IN_ALL_WAYS(rwlock, rdlock, OP_READ_LOCK)
LOCKS_IN_ALL_WAYS(rwlock, wrlock, OP_WRITE_LOCK)
GIVES(pthread_rwlock_unlock, OP_RW_UNLOCK)
BEGINS(pthread_rwlock_init, OP_LOCK_INIT, 0)
ENDS(pthread_rwlock_destroy)

TAKES_BY_TRYING(pthread_spin_lock, OP_LOCK, !REAL(pthread_spin_trylock)(object), SYS_sched_yield)
TRIES_LOCK(pthread_spin_trylock, OP_LOCK)
GIVES(pthread_spin_unlock, OP_UNLOCK)
BEGINS(pthread_spin_init, OP_LOCK_INIT, 0)
ENDS(pthread_spin_destroy)

#define C11_LOCKS(name) \
    TAKES_IN_TIME(int, name, OP_LOCK, CALLED(name), r == thrd_busy, REAL(mtx_trylock)(object), \
                  r == thrd_success, thrd_timedout)
C11_LOCKS(mtx_lock)
C11_LOCKS(mtx_timedlock)
TRIES_BY(int, mtx_trylock, OP_LOCK, thrd_busy, r == thrd_success)
GIVES(mtx_unlock, OP_UNLOCK)
BEGINS(mtx_init, OP_LOCK_INIT, 0)
ENDS(mtx_destroy)

TAKES_BY(void, flockfile, OP_LOCK, DONE(CALLED(flockfile)), r, REAL(ftrylockfile)(object), 1)
TRIES_BY(int, ftrylockfile, OP_LOCK, EBUSY, !r)
GIVES(funlockfile, OP_UNLOCK)

/* ---- conditions: the mutex is given up and taken again; a signal orders nothing by itself ---- */
static const struct timespec over;     /* a time long ago */
#define WAITS(name, time) \
    WAITS_BY(int, name, OP_LOCK, OP_UNLOCK, REAL(pthread_mutex_unlock)(lock), \
             REAL(pthread_mutex_trylock)(lock) != EBUSY, REAL(pthread_mutex_lock)(lock), CALLED(name), r, \
             time = (word)&over)
WAITS(pthread_cond_wait, third)
WAITS(pthread_cond_timedwait, third)
WAITS(pthread_cond_clockwait, fourth)
GIVES(pthread_cond_signal, OP_USE)
GIVES(pthread_cond_broadcast, OP_USE)
ENDS(pthread_cond_destroy)
WAITS(cnd_wait, third)
WAITS(cnd_timedwait, third)
GIVES(cnd_signal, OP_USE)
GIVES(cnd_broadcast, OP_USE)
ENDS(cnd_destroy)

/* ---- semaphores, barriers, once ---- */
#define WAITS_FOR_TOKEN(name, error) \
    TAKES_IN_TIME(int, name, OP_WAIT, CALLED(name), r && errno == EAGAIN, REAL(sem_trywait)(object), !r, \
                  (errno = error, -1))
WAITS_FOR_TOKEN(sem_wait, EINTR)
WAITS_FOR_TOKEN(sem_timedwait, ETIMEDOUT)
WAITS_FOR_TOKEN(sem_clockwait, ETIMEDOUT)
TRIES_BY(int, sem_trywait, OP_WAIT, (errno = EAGAIN, -1), !r)
GIVES(sem_post, OP_POST)
ENDS(sem_destroy)

BEGINS(pthread_barrier_init, OP_BARRIER_INIT, (unsigned)third)
ENDS(pthread_barrier_destroy)
PUBLIC int pthread_barrier_wait(pthread_barrier_t *b) {
    thread *t = enter(MAY_YIELD);
    if (!t) return REAL(pthread_barrier_wait)(b);
    put(t, OP_ARRIVE, b, 0, CALLER);
    int r = BLOCKING(t, REAL(pthread_barrier_wait)(b));
    if (is_replaying) r = was_unusual(t) ? PTHREAD_BARRIER_SERIAL_THREAD : 0;
    else if (r == PTHREAD_BARRIER_SERIAL_THREAD) note_unusual(t);
    put(t, OP_DEPART, b, 0, CALLER);
    leave(t);
    return r;
}

/* What was done by here comes before what the next thread does that takes it, as with a store and a load. */
static void note_atomic(enum operation operation, const void *p, uint64_t size, uint64_t caller) {
    int order = operation == OP_ATOMIC_LOAD ? __ATOMIC_ACQUIRE
        : operation == OP_ATOMIC_STORE ? __ATOMIC_RELEASE : __ATOMIC_ACQ_REL;
    if (others) note_bytes(MAY_YIELD, operation, p, size | order << ATOMIC_SIZE_BITS, caller);
}

/* The C library keeps in its flag that it is done. It is tried again after a function that throws. */
enum { IS_DONE = 2 };
static __thread struct once { void (*function)(void); pthread_once_t *flag; uint64_t caller; } once;
static void end_once(struct once *o) { note_atomic(OP_ATOMIC_STORE, o->flag, sizeof *o->flag, o->caller); }
static void run_once(void) {
    struct once o __attribute__((cleanup(end_once))) = once; /* the function may come to another once */
    note_atomic(OP_ATOMIC_LOAD, o.flag, sizeof *o.flag, o.caller);
    o.function();
}

/* Is a thread at it, by the flag's state?  That has the number of forks, too: what the parent was at is begun
   anew in a child. The C library alone knows the number, and shows it in a flag of ours. */
static __thread pthread_once_t own;
static __thread int own_state;
static void look(void) { own_state = own; }
static int is_at_it(int state) {
    own = PTHREAD_ONCE_INIT;
    REAL(pthread_once)(&own, look);
    return state == own_state;
}

#define WAITS_WHILE(flag, state) REAL(syscall)(SYS_futex, flag, FUTEX_WAIT_PRIVATE, state, 0, 0, 0)
static void wait_for_once(pthread_once_t *flag, int state) {
    thread *t = enter(YIELDS_BY_LIST);
    if (t && !waits_for_list(t)) BLOCKING(t, WAITS_WHILE(flag, state));
    if (t) leave(t);
    else WAITS_WHILE(flag, state);
}

/* Who finds that nobody is at it has the turn still when it begins. */
static int do_once(pthread_once_t *flag, void (*function)(void), uint64_t caller) {
    int state;
    while ((state = load_acquire(flag, caller)) && !(state & IS_DONE) && is_at_it(state))
        wait_for_once(flag, state);
    if (state & IS_DONE) return 0;
    once = (struct once){function, flag, caller};
    int error = REAL(pthread_once)(flag, run_once);
    note_atomic(OP_ATOMIC_LOAD, flag, sizeof *flag, caller);
    return error;
}
PUBLIC int pthread_once(pthread_once_t *flag, void (*function)(void)) {
    return do_once(flag, function, CALLER);
}
PUBLIC void call_once(once_flag *flag, void (*function)(void)) {
    do_once((pthread_once_t *)flag, function, CALLER);
}

/* of C++ local statics: like an atomic byte */
/* Without a C++ library behind this one (it is linked into the program, or came by dlopen) it is done here:
   the first byte says that the variable is ready, the second that somebody makes it. */
static int plain_abort(char *byte) {
    __atomic_store_n(byte + 1, 0, __ATOMIC_RELEASE);
    return 0;
}
static int plain_acquire(char *byte) {
    for (;;) {
        char idle = 0;
        if (__atomic_load_n(byte, __ATOMIC_ACQUIRE)) return 0;
        if (__atomic_compare_exchange_n(byte + 1, &idle, 1, 0, __ATOMIC_ACQUIRE, __ATOMIC_RELAXED))
            return __atomic_load_n(byte, __ATOMIC_ACQUIRE) ? plain_abort(byte) : 1;
        syscall(SYS_sched_yield);
    }
}
static int plain_release(char *byte) {
    __atomic_store_n(byte, 1, __ATOMIC_RELEASE);
    return plain_abort(byte);
}
#define REAL_OR(plain, name) (REAL_IF_ANY(name) ? REAL_IF_ANY(name) : plain)
PUBLIC int __cxa_guard_acquire(char *byte) {
    let_others_run();
    int r = REAL_OR(plain_acquire, __cxa_guard_acquire)(byte);
    note_atomic(OP_ATOMIC_LOAD, byte, 1, CALLER);
    return r;
}
/* What was done for the variable so far comes before what the next thread does for it, even if it threw. */
#define LEAVES_GUARD(name, plain) \
    PUBLIC int name(char *byte) { \
        note_atomic(OP_ATOMIC_STORE, byte, 1, CALLER); \
        return REAL_OR(plain, name)(byte); \
    }
LEAVES_GUARD(__cxa_guard_release, plain_release)
LEAVES_GUARD(__cxa_guard_abort, plain_abort)

/* of C++: a promise's value that is there when its thread ends. The C++ library stores that in code without
   hooks; so it is recorded right before. Its own words are std::__at_thread_exit_elt, a weak_ptr to the
   state, and in this the status. */
typedef struct { void *next; void (*function)(void *); char *state, *count; } value_at_end;
enum { STATUS = 16, USERS = 8 };
static void (*sets_status)(void *);
static void comes_to_its_end(void *value_) {
    value_at_end *value = value_;
    if (*(int *)(value->count + USERS) > 0)
        note_atomic(OP_ATOMIC_STORE, value->state + STATUS, sizeof(int), CALLER);
    sets_status(value);
}
PUBLIC void _ZNSt13__future_base13_State_baseV211_Make_ready6_M_setEv(value_at_end *value) {
    REAL(_ZNSt13__future_base13_State_baseV211_Make_ready6_M_setEv)(value);
    sets_status = value->function;
    value->function = comes_to_its_end;
}

/* of C++: exceptions. The C++ library counts the users of one, in a word before it: each exception_ptr, and
   each throw until its last handler ends. What a user did comes before what the last one does, who destroys
   it. A throw has its exception behind it; that of rethrow_exception has the address before it. */
enum { COUNT_BEFORE = 128, ADDRESS_BEFORE = 80, AGAIN = 1 };
#define THROWN 0x474e5543432b2b00u     /* "GNUCC++" */
static void ends_use(const char *exception, uint64_t caller) {
    note_atomic(OP_ATOMIC_UPDATE, exception - COUNT_BEFORE, sizeof(int), caller);
}
WRAPS_HIDDEN(CXXABI_1.3.13, void, _ZNSt15__exception_ptr13exception_ptr10_M_releaseEv, (const char **its)) {
    if (*its) ends_use(*its, CALLER);
    REAL_HIDDEN(_ZNSt15__exception_ptr13exception_ptr10_M_releaseEv)(its);
}
WRAPS_HIDDEN(GCC_3.0, void, _Unwind_DeleteException, (struct _Unwind_Exception *thrown)) {
    uint64_t way = thrown->exception_class - THROWN;
    if (!way) ends_use((const char *)(thrown + 1), CALLER);
    if (way == AGAIN) ends_use(*(const char **)((char *)thrown - ADDRESS_BEFORE), CALLER);
    REAL_HIDDEN(_Unwind_DeleteException)(thrown);
}
