/* Locks and queues of libraries that have no hooks, as their exported functions are called. Nothing of such a
   library is needed here: functions have the C names of their exports, and objects are addresses. */
#pragma once
#include "ordering.h"

#define LOCKS(name, try, operation) \
    TAKES_BY(void, name, operation, DONE(CALLED(name)), r, !REAL_AS(try)(object, 0, 0, 0), 1)
#define TRIES_LOCK(name, operation) TRIES_BY(int, name, operation, 0, r)
#define WAITS_FOR(type, name, taken, released, give, try, take, real) \
    WAITS_BY(type, name, taken, released, DONE(give), try, take, !(real), !r, third = fourth = 0)

/* A word that the library makes ready by a store with release, and reads with acquire. Lines of a header use
   it too, so of code with hooks these are atomic accesses. Of other code they aren't recorded, for it may use
   the word otherwise. */
enum { WORD = sizeof(void *), WORD_READ = WORD | __ATOMIC_ACQUIRE << ATOMIC_SIZE_BITS,
       WORD_WRITTEN = WORD | __ATOMIC_RELEASE << ATOMIC_SIZE_BITS };
#define READS_WORD(type, name, real, done) \
    ORDERS(type, name) { \
        thread *t = instrumented(CALLER) ? enter(MAY_YIELD) : 0; \
        if (!t) return (type)(real); \
        __typeof__(real) r = BLOCKING(t, real); \
        if (done) put(t, OP_ATOMIC_LOAD, object, WORD_READ, CALLER); \
        leave(t); \
        return (type)r; \
    }
#define WRITES_WORD(name) \
    ORDERS(void, name) { \
        thread *t = instrumented(CALLER) ? enter(MAY_YIELD) : 0; \
        if (t) put(t, OP_ATOMIC_STORE, object, WORD_WRITTEN, CALLER); \
        CALLED(name); \
        if (t) leave(t); \
    }
