/* The locks, semaphores, conditions and threads of Qt 5 and 6, by the names that C++ gives their functions.
   Of Qt 6 code that has hooks takes a QMutex in lines of its own, and tells of it as of a lock that the
   program makes itself (annotations.c). */
#include "libraries.h"
#include <stdbool.h>

/* A deadline is two words; zeros are one that is over. */
#define TRY(name, operation, done) TRIES_BY(bool, name, operation, 0, done)
#define TRY_WHILE(name, operation, has_time, done) \
    TAKES_IN_TIME(bool, name, operation, CALLED(name), !r && has_time, REAL_AS(name)(object, 0, 0, 0), \
                  done, 0)
#define TRY_FOR(name, operation, done) TRY_WHILE(name, operation, (int)(word)second, done)
#define TRY_UNTIL(name, operation, done) TRY_WHILE(name, operation, 1, done)

/* ---- QMutex, which in Qt 5 is a QRecursiveMutex as well ---- */
TRY_FOR(_ZN6QMutex7tryLockEi, OP_LOCK, r)
LOCKS(_ZN6QMutex4lockEv, _ZN6QMutex7tryLockEi, OP_LOCK)
GIVES(_ZN6QMutex6unlockEv, OP_UNLOCK)
TRY_FOR(_ZN15QRecursiveMutex7tryLockEi, OP_LOCK, r)
TRY_UNTIL(_ZN15QRecursiveMutex7tryLockE14QDeadlineTimer, OP_LOCK, r)
GIVES(_ZN15QRecursiveMutex6unlockEv, OP_UNLOCK)

/* What a header's lines call if the lock is taken or waited for. They have hooks: the word is an atomic. */
READS_WORD(void, _ZN11QBasicMutex12lockInternalEv, DONE(CALLED(_ZN11QBasicMutex12lockInternalEv)), 1)
READS_WORD(bool, _ZN11QBasicMutex12lockInternalEi, CALLED(_ZN11QBasicMutex12lockInternalEi), r)
READS_WORD(bool, _ZN11QBasicMutex12lockInternalE14QDeadlineTimer,
           CALLED(_ZN11QBasicMutex12lockInternalE14QDeadlineTimer), r)
WRITES_WORD(_ZN11QBasicMutex14unlockInternalEv)

/* ---- QReadWriteLock ---- */
static __thread void *written;         /* the one that this thread took last for writing, and holds */
static int takes_to_write(void *lock) {
    written = lock;
    return 1;
}
#define WRITES_NOW (r && takes_to_write(object))
TRY(_ZN14QReadWriteLock14tryLockForReadEv, OP_READ_LOCK, r)
TRY(_ZN14QReadWriteLock15tryLockForWriteEv, OP_WRITE_LOCK, WRITES_NOW)
TRY_FOR(_ZN14QReadWriteLock14tryLockForReadEi, OP_READ_LOCK, r)
TRY_FOR(_ZN14QReadWriteLock15tryLockForWriteEi, OP_WRITE_LOCK, WRITES_NOW)
TRY_UNTIL(_ZN14QReadWriteLock14tryLockForReadE14QDeadlineTimer, OP_READ_LOCK, r)
TRY_UNTIL(_ZN14QReadWriteLock15tryLockForWriteE14QDeadlineTimer, OP_WRITE_LOCK, WRITES_NOW)
LOCKS(_ZN14QReadWriteLock11lockForReadEv, _ZN14QReadWriteLock14tryLockForReadEv, OP_READ_LOCK)
TAKES_BY(void, _ZN14QReadWriteLock12lockForWriteEv, OP_WRITE_LOCK,
         DONE(CALLED(_ZN14QReadWriteLock12lockForWriteEv)), r,
         !REAL_AS(_ZN14QReadWriteLock15tryLockForWriteEv)(object, 0, 0, 0), takes_to_write(object))
GIVES_BY(_ZN14QReadWriteLock6unlockEv, OP_RW_UNLOCK, object, if (written == object) written = 0)

/* ---- QSemaphore ---- */
#define ACQUIRED REAL_AS(_ZN10QSemaphore10tryAcquireEi)(object, second, 0, 0)
TRY(_ZN10QSemaphore10tryAcquireEi, OP_WAIT, r)
TAKES_BY(void, _ZN10QSemaphore7acquireEi, OP_WAIT, DONE(CALLED(_ZN10QSemaphore7acquireEi)), r, !ACQUIRED, 1)
TAKES_IN_TIME(bool, _ZN10QSemaphore10tryAcquireEii, OP_WAIT, CALLED(_ZN10QSemaphore10tryAcquireEii),
              !r && (int)third, ACQUIRED, r, 0)
TAKES_IN_TIME(bool, _ZN10QSemaphore10tryAcquireEi14QDeadlineTimer, OP_WAIT,
              CALLED(_ZN10QSemaphore10tryAcquireEi14QDeadlineTimer), !r, ACQUIRED, r, 0)
GIVES(_ZN10QSemaphore7releaseEi, OP_POST)

/* ---- QWaitCondition: Qt 6 has no QMutex::lock that could be called ---- */
static int is_qt_5(void) {
    static int known;
    if (!known) known = library_symbol("_ZN6QMutex4lockEv") ? 5 : 6;
    return known == 5;
}
/* As the lines of Qt 6's header do it: 1 is a lock that is taken, and nobody waits. */
static int try_mutex(void *m) {
    uintptr_t idle = 0;
    if (is_qt_5()) return REAL_AS(_ZN6QMutex7tryLockEi)(m, 0, 0, 0);
    return __atomic_compare_exchange_n((uintptr_t *)m, &idle, 1, 0, __ATOMIC_ACQUIRE, __ATOMIC_RELAXED);
}
static void take_mutex(void *m) {
    if (is_qt_5()) REAL_AS(_ZN6QMutex4lockEv)(m, 0, 0, 0);
    else if (!try_mutex(m)) REAL_AS(_ZN11QBasicMutex12lockInternalEv)(m, 0, 0, 0);
}
static void give_mutex(void *m) {
    uintptr_t taken = 1;
    if (is_qt_5()) REAL_AS(_ZN6QMutex6unlockEv)(m, 0, 0, 0);
    else if (!__atomic_compare_exchange_n((uintptr_t *)m, &taken, 0, 0, __ATOMIC_RELEASE, __ATOMIC_RELAXED))
        REAL_AS(_ZN11QBasicMutex14unlockInternalEv)(m, 0, 0, 0);
}
#define WAITS(name) \
    WAITS_FOR(bool, name, is_qt_5() ? OP_LOCK : OP_WRITE_LOCK, is_qt_5() ? OP_UNLOCK : OP_RW_UNLOCK, \
              give_mutex(lock), try_mutex(lock), take_mutex(lock), CALLED(name))
WAITS(_ZN14QWaitCondition4waitEP6QMutexm)
WAITS(_ZN14QWaitCondition4waitEP6QMutex14QDeadlineTimer)

static int try_both_ways(void *m) {
    return written == m ? REAL_AS(_ZN14QReadWriteLock15tryLockForWriteEv)(m, 0, 0, 0)
        : REAL_AS(_ZN14QReadWriteLock14tryLockForReadEv)(m, 0, 0, 0);
}
static void take_both_ways(void *m) {
    if (written == m) REAL_AS(_ZN14QReadWriteLock12lockForWriteEv)(m, 0, 0, 0);
    else REAL_AS(_ZN14QReadWriteLock11lockForReadEv)(m, 0, 0, 0);
}
#define WAITS_BOTH_WAYS(name) \
    WAITS_FOR(bool, name, written == lock ? OP_WRITE_LOCK : OP_READ_LOCK, OP_RW_UNLOCK, \
              REAL_AS(_ZN14QReadWriteLock6unlockEv)(lock, 0, 0, 0), try_both_ways(lock), \
              take_both_ways(lock), CALLED(name))
WAITS_BOTH_WAYS(_ZN14QWaitCondition4waitEP14QReadWriteLockm)
WAITS_BOTH_WAYS(_ZN14QWaitCondition4waitEP14QReadWriteLock14QDeadlineTimer)
GIVES(_ZN14QWaitCondition7wakeOneEv, OP_USE)
GIVES(_ZN14QWaitCondition7wakeAllEv, OP_USE)

/* ---- QThread: it is a detached thread of POSIX, which has the QThread as its argument ---- */
static void *(*run_of_qt)(void *);
PUBLIC void _ZN7QThread5startENS_8PriorityE(void *q, int priority) {
    REAL(_ZN7QThread5startENS_8PriorityE)(q, priority);
    thread *t = enter(MAY_YIELD), *new = t ? newest_with(q) : 0;
    if (new && !run_of_qt) run_of_qt = new->function;
    if (t) leave(t);
}

/* It has ended, so all that it did comes before what this thread does from here on. */
static void see_end(thread *t, void *q, uint64_t caller) {
    thread *ended = newest_with(q);
    if (!ended || ended->function != run_of_qt) return;
    put_of(t, ended, OP_POST, ended, caller);
    put(t, OP_WAIT, ended, 0, caller);
}
#define SEES_END(name) \
    ORDERS(bool, name) { \
        thread *t = enter(MAY_YIELD); \
        if (!t) return CALLED(name); \
        bool r = BLOCKING(t, CALLED(name)); \
        if (r) see_end(t, object, CALLER); \
        leave(t); \
        return r; \
    }
SEES_END(_ZN7QThread4waitEm)
SEES_END(_ZN7QThread4waitE14QDeadlineTimer)
SEES_END(_ZNK7QThread10isFinishedEv)
