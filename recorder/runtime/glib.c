/* GLib's locks, conditions, queues and one-time initializations. Its threads are seen as those of POSIX. */
#include "libraries.h"

TRIES_LOCK(g_mutex_trylock, OP_LOCK)
LOCKS(g_mutex_lock, g_mutex_trylock, OP_LOCK)
GIVES(g_mutex_unlock, OP_UNLOCK)

/* These are a POSIX lock within, which would be seen too if the call waited for it. So it never does. */
#define LOCKS_BY_TRYING(name, try, operation) \
    TRIES_LOCK(try, operation) \
    TAKES_BY_TRYING(name, operation, REAL_AS(try)(object, 0, 0, 0), \
                    SYS_nanosleep, &(struct timespec){.tv_nsec = 50000}, 0)
LOCKS_BY_TRYING(g_rec_mutex_lock, g_rec_mutex_trylock, OP_LOCK)
GIVES(g_rec_mutex_unlock, OP_UNLOCK)
LOCKS_BY_TRYING(g_rw_lock_reader_lock, g_rw_lock_reader_trylock, OP_READ_LOCK)
LOCKS_BY_TRYING(g_rw_lock_writer_lock, g_rw_lock_writer_trylock, OP_WRITE_LOCK)
GIVES(g_rw_lock_reader_unlock, OP_RW_UNLOCK)
GIVES(g_rw_lock_writer_unlock, OP_RW_UNLOCK)

#define WAITS(type, name, real) \
    WAITS_FOR(type, name, OP_LOCK, OP_UNLOCK, REAL_AS(g_mutex_unlock)(lock, 0, 0, 0), \
              REAL_AS(g_mutex_trylock)(lock, 0, 0, 0), REAL_AS(g_mutex_lock)(lock, 0, 0, 0), real)
WAITS(void, g_cond_wait, DONE(CALLED(g_cond_wait)) + 1)
WAITS(int, g_cond_wait_until, CALLED(g_cond_wait_until))
GIVES(g_cond_signal, OP_USE)
GIVES(g_cond_broadcast, OP_USE)

/* ---- queues: what is taken out comes after all that was put in before ---- */
#define TAKES_ITEM(name, form) \
    TAKES_IN_TIME(void *, name##form, OP_WAIT, CALLED(name##form), !r, \
                  REAL_AS(g_async_queue_try_pop##form)(object, 0, 0, 0), r, 0)
#define QUEUE(form) \
    TRIES_BY(void *, g_async_queue_try_pop##form, OP_WAIT, 0, r) \
    TAKES_ITEM(g_async_queue_pop, form) \
    TAKES_ITEM(g_async_queue_timeout_pop, form) \
    GIVES(g_async_queue_push##form, OP_POST) \
    GIVES(g_async_queue_push_front##form, OP_POST) \
    GIVES(g_async_queue_push_sorted##form, OP_POST)
QUEUE()
QUEUE(_unlocked)

/* ---- once: the macros of the first read the word themselves ---- */
READS_WORD(int, g_once_init_enter, CALLED(g_once_init_enter), !r)
READS_WORD(int, g_once_init_enter_pointer, CALLED(g_once_init_enter_pointer), !r)
WRITES_WORD(g_once_init_leave)
WRITES_WORD(g_once_init_leave_pointer)

static __thread struct { void *(*function)(void *); void *flag; } once;
static void *run_once(void *argument) {
    void *flag = once.flag, *r = once.function(argument);    /* the function may come to another once */
    note(OP_POST, flag, CALLER);
    return r;
}
PUBLIC void *g_once_impl(void *flag, void *(*function)(void *), void *argument) {
    let_others_run();
    once.function = function;
    once.flag = flag;
    void *r = REAL(g_once_impl)(flag, run_once, argument);
    note(OP_WAIT, flag, CALLER);
    return r;
}
