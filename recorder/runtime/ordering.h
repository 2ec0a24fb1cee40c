/* The shapes of the calls that order threads: each is recorded and passed on. A call that takes something (a
   lock, a token) is recorded after it, one that gives something before it; a call that may wait does so
   without the turn. `real` is the call itself and r its result; if it has none, `real` returns a number.
   The object comes first. */
#pragma once
#include "runtime.h"

#define ORDERS(type, name) WRAPS(type, name, (void *object, void *second, word third, word fourth))
#define CALLED(name) REAL_AS(name)(object, second, third, fourth)

/* A call that may sleep in a replay, where the list has it: with the turn. Handlers of signals run in it,
   also for those that came before in the hook, for it may be them that it waits for. */
#define SLEEPING(t, call) ({ \
    end_inside(t); \
    __typeof__(call) result_ = (call); \
    begin_inside(t); \
    end_quick(t); \
    result_; \
})
/* It may wait; recorded after it, if it was done. The quick form is tried first, for it needs no hand-over.
   In a replay it is busy where it was then; else the one that has it may be about to give it. Where its time
   ran out, it is `late` there at once. */
#define TAKES_BY(type, name, operation, real, busy, quick, done) \
    TAKES_IN_TIME(type, name, operation, real, busy, quick, done, SLEEPING(t, real))
#define TAKES_IN_TIME(type, name, operation, real, busy, quick, done, late) \
    ORDERS(type, name) { \
        thread *t = enter(MAY_YIELD); \
        if (!t) return (type)(real); \
        __typeof__(real) r = 0; \
        int is_busy; \
        do { \
            is_busy = was_unusual(t); \
            if (!is_busy) r = is_replaying ? SLEEPING(t, real) : quick; \
            if (!is_busy && busy) is_busy = note_unusual(t); \
        } while (is_busy && let_another_run(t)); \
        if (is_busy && waits_for_list(t)) r = was_unusual(t) ? (late) : SLEEPING(t, real); \
        else if (is_busy) r = BLOCKING(t, real); \
        if (done) put(t, operation, object, 0, CALLER); \
        else if (is_busy && !is_replaying) note_unusual(t); \
        leave(t); \
        return (type)r; \
    }
/* The same, but never waits. */
#define TRIES_BY(type, name, operation, busy, done) \
    ORDERS(type, name) { \
        thread *t = enter(MAY_YIELD); \
        if (!t) return CALLED(name); \
        int is_busy = was_unusual(t); \
        type r = is_busy ? (busy) : CALLED(name); \
        if (done) put(t, operation, object, 0, CALLER); \
        else note_spin(t, CALLER); \
        if (!is_busy && !(done)) note_unusual(t); \
        leave(t); \
        return r; \
    }
/* Taken by trying again and again, where the real call would be seen besides, or never sleeps. */
#define TAKES_BY_TRYING(name, operation, try, ...) \
    TAKES_BY(int, name, operation, ({ while (!(try)) REAL(syscall)(__VA_ARGS__); 0; }), r, !(try), 1)
/* Recorded before it, where there is a thread t; never waits. */
#define IN_TURN(name, before) \
    ORDERS(word, name) { \
        thread *t = enter(MAY_YIELD); \
        before; \
        word r = CALLED(name); \
        if (t) leave(t); \
        return r; \
    }
#define GIVES_BY(name, operation, given, before) \
    IN_TURN(name, if (t) put(t, operation, given, 0, CALLER); before)
#define GIVES(name, operation) GIVES_BY(name, operation, object, )

/* A wait without the lock that was given up for it; after it, cancelled or not, that is recorded as taken. */
struct waking { thread *t; void *lock; enum operation taken; uint64_t caller; int unusual; };
static inline void has_woken(void *waking_) {
    struct waking *waking = waking_;
    begin_inside(waking->t);
    take_turn(waking->t);
    if (waking->unusual) note_unusual(waking->t);
    put(waking->t, waking->taken, waking->lock, 0, waking->caller);
    leave(waking->t);
}
#define SLEEPING_WITHOUT(t, lock, taken, is_unusual, call) ({ \
    struct waking waking = {t, lock, taken, CALLER, 0}; \
    __typeof__(call) r; \
    pthread_cleanup_push(has_woken, &waking); \
    give_turn(t); \
    leave(t); \
    r = (call); \
    waking.unusual = is_unusual; \
    pthread_cleanup_pop(1); \
    r; \
})
/* A wait on the condition, which comes first, without the lock, which comes second, by a call that returns an
   error, r, or 0. In a replay it wakes when the list says so, as a thread may that nobody woke, and takes the
   lock with the turn. Where it had no more time it has none left either, by `late`. */
#define WAITS_BY(type, name, taken, released, give, try, take, error, result, late) \
    ORDERS(type, name) { \
        void *lock = second; \
        thread *t = enter(MAY_YIELD); \
        int r = 0; \
        if (t) put(t, OP_USE, object, 0, CALLER); \
        if (t) put(t, released, lock, 0, CALLER); \
        if (!t) r = (error); \
        else if (!is_replaying || (give)) r = SLEEPING_WITHOUT(t, lock, taken, r != 0, error); \
        else { \
            waits_for_list(t); \
            if (!(try)) BLOCKING(t, DONE(take)); \
            if (was_unusual(t)) late, r = SLEEPING(t, error); \
            put(t, taken, lock, 0, CALLER); \
            leave(t); \
        } \
        return (type)(result); \
    }
