/* liburcu, if a program calls its functions (without _LGPL_SOURCE): for each flavour, such as `memb`. */
#include "libraries.h"

/* What was done in a reader's section before the end of a wait for readers comes before what is done after
   it; and what was done before its beginning before what sections do that begin later. Both are the same for
   all flavours: that is more order, where a program uses two. */
static char readers, writers;

#define BEGINS_READING(name) \
    PUBLIC void name(void) { \
        REAL(name)(); \
        note(OP_WAIT, &writers, CALLER); \
    }
#define ENDS_READING(name) GIVES_BY(name, OP_POST, &readers, )
#define GIVES_AND_TAKES(name, given, before, taken) \
    PUBLIC void name(void) { \
        note(OP_POST, given, CALLER); \
        before; \
        REAL(name)(); \
        note(OP_WAIT, taken, CALLER); \
    }
#define WAITS_FOR_READERS(name) GIVES_AND_TAKES(name, &writers, let_others_run(), &readers)
/* The thread that calls the function waits for readers before. It may begin here. */
#define CALLS_LATER(name) \
    PUBLIC void name(void *head, void (*function)(void *)) { \
        note(OP_POST, &readers, CALLER); \
        REAL(name)(head, function); \
    }
#define FLAVOUR(flavour) \
    WAITS_FOR_READERS(urcu_##flavour##_synchronize_rcu) \
    CALLS_LATER(urcu_##flavour##_call_rcu) \
    CALLS_LATER(urcu_##flavour##_defer_rcu)
#define FLAVOUR_WITH_SECTIONS(flavour) \
    FLAVOUR(flavour) \
    BEGINS_READING(urcu_##flavour##_read_lock) \
    ENDS_READING(urcu_##flavour##_read_unlock)
FLAVOUR_WITH_SECTIONS(memb)
FLAVOUR_WITH_SECTIONS(mb)
FLAVOUR_WITH_SECTIONS(signal)
FLAVOUR_WITH_SECTIONS(bp)

/* A thread reads always, but in these moments. */
FLAVOUR(qsbr)
GIVES_AND_TAKES(urcu_qsbr_quiescent_state, &readers, , &writers)
ENDS_READING(urcu_qsbr_thread_offline)
BEGINS_READING(urcu_qsbr_thread_online)
BEGINS_READING(urcu_qsbr_register_thread)
ENDS_READING(urcu_qsbr_unregister_thread)

/* ---- pointers: who reads one comes after who made it known. Of a reader the value alone is known here.
   Values that share a byte here share their order; the block is none of it, for that would use it ---- */
static char values[1 << 12];
static char *of_value(void *value) { return &values[((uint64_t)value >> 4) % sizeof values]; }

PUBLIC void *rcu_dereference_sym(void *value) {
    if (value) note(OP_WAIT, of_value(value), CALLER);
    return REAL(rcu_dereference_sym)(value);
}
#define CHANGES_POINTER(name, parameters, arguments) \
    PUBLIC void *name parameters { \
        if (value) note(OP_POST, of_value(value), CALLER); \
        void *r = REAL(name) arguments; \
        if (r) note(OP_WAIT, of_value(r), CALLER); \
        return r; \
    }
CHANGES_POINTER(rcu_set_pointer_sym, (void **p, void *value), (p, value))
CHANGES_POINTER(rcu_xchg_pointer_sym, (void **p, void *value), (p, value))
CHANGES_POINTER(rcu_cmpxchg_pointer_sym, (void **p, void *old, void *value), (p, old, value))
