/* gcc's OpenMP. Its library hands over by system calls that nobody sees; so what orders threads is told here,
   at the calls that the compiler makes into it: a region's begin and end, barriers, critical and ordered
   sections, locks and tasks. */
#include "ordering.h"
#include <stdbool.h>

typedef char object[16];               /* its address is what it is known by */
typedef void (*function)(void *);
typedef void (*copy_function)(void *, void *);
typedef struct team {
    void *reductions;                  /* first, as in the data of a region that has any */
    object begin, end, barrier, ordered, tasks, depend;
    function function;
    void *data;
    uint64_t caller;
} team;
typedef struct task {
    _Atomic int users;                 /* itself while it runs, and each child */
    struct task *parent;
    team *team;
    function function;
    void *data;
    int depends;
    uint64_t caller;
    object begin, children;
} task;

static __thread task *now;             /* this thread's task; of a region a task for each thread */

/* Without memory nothing is recorded from there on, and the library runs the program's functions. */
static void *new_zeros(size_t size) {
    void *p = calloc(1, size);
    if (!p) stop_recording("there is no memory to follow OpenMP");
    return p;
}

static void leave_task(task *t) {
    while (t && atomic_fetch_sub(&t->users, 1) == 1) {
        task *parent = t->parent;
        free(t);
        t = parent;
    }
}

/* ---- regions ---- */
static void run_region(void *team_) {
    team *m = team_;
    task *before = now, *own = new_zeros(sizeof *own);
    if (own) *own = (task){.users = 1, .team = m};
    now = own;
    note(OP_WAIT, m->begin, m->caller);
    m->function(m->data);
    note(OP_POST, m->end, m->caller);
    now = before;
    leave_task(own);
    let_others_run();
}

static team *begin_region(function f, void *data, uint64_t caller) {
    team *m = new_zeros(sizeof *m);
    if (!m) return 0;
    m->function = f;
    m->data = data;
    m->caller = caller;
    note(OP_POST, m->begin, caller);
    let_others_run();
    return m;
}

static void end_region(team *m) {
    if (m) {
        note(OP_WAIT, m->end, m->caller);
        note(OP_WAIT, m->tasks, m->caller);
    }
    free(m);
    KEEP_ORDER();                      /* so that is a call; by a jump it would be the program's own */
}

#define RUN(name) REAL(name)(m ? run_region : f, m ? m : data, a, b, c, d, e, g)
#define REGION_BY(type, name, real) \
    PUBLIC type name(function f, void *data, word a, word b, word c, word d, word e, word g) { \
        team *m = begin_region(f, data, CALLER); \
        __typeof__(real) r = (real); \
        end_region(m); \
        return (type)r; \
    }
#define REGION(name) REGION_BY(void, name, DONE(RUN(name)))
REGION(GOMP_parallel) REGION(GOMP_parallel_sections)
REGION_BY(unsigned, GOMP_parallel_reductions,
          (m ? m->reductions = *(void **)data : 0, RUN(GOMP_parallel_reductions)))
REGION(GOMP_parallel_loop_static) REGION(GOMP_parallel_loop_dynamic) REGION(GOMP_parallel_loop_guided)
REGION(GOMP_parallel_loop_nonmonotonic_dynamic) REGION(GOMP_parallel_loop_nonmonotonic_guided)
REGION(GOMP_parallel_loop_runtime) REGION(GOMP_parallel_loop_nonmonotonic_runtime)
REGION(GOMP_parallel_loop_maybe_nonmonotonic_runtime)

/* ---- barriers: by themselves, and at the ends of loops and sections; all tasks are done after them ---- */
static void arrive(uint64_t caller) {
    if (now) note(OP_ARRIVE, now->team->barrier, caller);
    let_others_run();
}

static void depart(uint64_t caller) {
    if (!now) return;
    note(OP_DEPART, now->team->barrier, caller);
    note(OP_WAIT, now->team->tasks, caller);
}

#define BARRIER(name) \
    PUBLIC word name(word data) { \
        arrive(CALLER); \
        word r = REAL(name)(data); \
        depart(CALLER); \
        return r; \
    }
BARRIER(GOMP_barrier) BARRIER(GOMP_loop_end) BARRIER(GOMP_sections_end)
BARRIER(GOMP_barrier_cancel) BARRIER(GOMP_loop_end_cancel) BARRIER(GOMP_sections_end_cancel)
BARRIER(GOMP_workshare_task_reduction_unregister)

/* The thread that gets null does the work and gives its data to the others, which wait. */
PUBLIC void *GOMP_single_copy_start(void) {
    arrive(CALLER);
    void *r = REAL(GOMP_single_copy_start)();
    if (r) depart(CALLER);
    return r;
}
BARRIER(GOMP_single_copy_end)

/* Who comes first to a single section, or gets a loop's next part: none of these waits, and a replay has it
   so again. */
#define PARTS(loop) IN_TURN(GOMP_##loop##_next, )
IN_TURN(GOMP_single_start, )
PARTS(loop_dynamic) PARTS(loop_guided) PARTS(loop_runtime) PARTS(sections)
PARTS(loop_nonmonotonic_dynamic) PARTS(loop_nonmonotonic_guided) PARTS(loop_nonmonotonic_runtime)
PARTS(loop_maybe_nonmonotonic_runtime)

/* ---- locks ---- */
/* The library's own for sections can't be tried; so these are in its place. A word is 0, or 1 if it is taken,
   or 2 if somebody may wait for it. */
static int unnamed, atomic;
static int try_word(int *lock) {
    int idle = 0;
    return __atomic_compare_exchange_n(lock, &idle, 1, 0, __ATOMIC_ACQUIRE, __ATOMIC_RELAXED);
}
static void take_word(int *lock) {
    while (__atomic_exchange_n(lock, 2, __ATOMIC_ACQUIRE))
        REAL(syscall)(SYS_futex, lock, FUTEX_WAIT_PRIVATE, 2, 0, 0, 0);
}
static void give_word(int *lock) {
    if (__atomic_exchange_n(lock, 0, __ATOMIC_RELEASE) == 2)
        REAL(syscall)(SYS_futex, lock, FUTEX_WAKE_PRIVATE, 1, 0, 0, 0);
}
#define SECTION(name, its) \
    TAKES_BY(void, GOMP_##name##_start, OP_LOCK, DONE((object = (its), take_word(object))), r, \
             (object = (its), !try_word(object)), 1) \
    PUBLIC void GOMP_##name##_end(void *object) { \
        object = (its); \
        note(OP_UNLOCK, object, CALLER); \
        give_word(object); \
    }
SECTION(critical, &unnamed)
SECTION(critical_name, object)
SECTION(atomic, &atomic)

#define LOCKS(takes, try, gives) \
    TRIES_BY(int, try, OP_LOCK, 0, r) \
    TAKES_BY(void, takes, OP_LOCK, DONE(CALLED(takes)), r, !REAL_AS(try)(object, 0, 0, 0), 1) \
    GIVES(gives, OP_UNLOCK)
LOCKS(omp_set_lock, omp_test_lock, omp_unset_lock)
LOCKS(omp_set_nest_lock, omp_test_nest_lock, omp_unset_nest_lock)

PUBLIC void GOMP_ordered_start(void) {
    let_others_run();
    REAL(GOMP_ordered_start)();
    if (now) note(OP_LOCK, now->team->ordered, CALLER);
}
PUBLIC void GOMP_ordered_end(void) {
    if (now) note(OP_UNLOCK, now->team->ordered, CALLER);
    REAL(GOMP_ordered_end)();
}

/* ---- tasks: a task comes after its creation, and before what waits for it ---- */
enum { TASK_DEPENDS = 8 };             /* in its flags */

/* What the library copies. If the task has the clause `detach`, it puts the event first, as in the data. */
typedef struct { void *event; task *task; } handed;

static void run_task(void *handed_) {
    handed *h = handed_;
    task *t = h->task, *before = now;
    if (h->event) *(void **)t->data = h->event;
    now = t;
    note(OP_WAIT, t->begin, t->caller);
    if (t->depends) note(OP_WAIT, t->team->depend, t->caller);
    t->function(t->data);
    note(OP_POST, t->parent->children, t->caller);
    note(OP_POST, t->team->tasks, t->caller);
    if (t->depends) note(OP_POST, t->team->depend, t->caller);
    now = before;
    leave_task(t);
}

/* The task with its data after it, as the library would copy it; null outside a region. */
static task *new_task(function f, void *data, copy_function copy, long size, long align) {
    task *t = now ? new_zeros(sizeof *t + size + align) : 0;
    if (!t) return 0;
    t->data = (void *)(((uintptr_t)(t + 1) + align - 1) / align * align);
    if (copy) copy(t->data, data);
    else memcpy(t->data, data, size);
    t->users = 1;
    t->parent = now;
    atomic_fetch_add(&now->users, 1);
    t->team = now->team;
    t->function = f;
    return t;
}

PUBLIC void GOMP_task(function f, void *data, copy_function copy, long size, long align, bool deferred,
                      unsigned flags, void **depend, int priority, void *detach) {
    task *t = new_task(f, data, copy, size, align > 0 ? align : 1);
    if (!t) {                          /* outside a region it runs at once */
        REAL(GOMP_task)(f, data, copy, size, align, deferred, flags, depend, priority, detach);
        return;
    }
    t->caller = CALLER;
    t->depends = (flags & TASK_DEPENDS) != 0;
    note(OP_POST, t->begin, CALLER);
    let_others_run();
    handed h = {0, t};
    REAL(GOMP_task)(run_task, &h, 0, sizeof h, sizeof t, deferred, flags, depend, priority, detach);
}

#define WAITS_FOR_TASKS(name, tasks) \
    PUBLIC void name(word depend) { \
        let_others_run(); \
        REAL(name)(depend); \
        if (now) note(OP_WAIT, tasks, CALLER); \
    }
WAITS_FOR_TASKS(GOMP_taskwait, now->children)
WAITS_FOR_TASKS(GOMP_taskwait_depend, now->children)
WAITS_FOR_TASKS(GOMP_taskgroup_end, now->team->tasks)

/* ---- what isn't seen: each is said once ---- */
static void tell_of(_Atomic int *told, const char *what) {
    if (recording && !atomic_exchange(told, 1))
        tell("the program uses OpenMP's %s, of which not all is recorded: races may be false, "
             "or missed", what);
}

#define UNSEEN(what, name) \
    PUBLIC void name(word a, word b, word c, word d, word e, word f, word g, word h, word i, word j, \
                     word k) { \
        static _Atomic int told; \
        tell_of(&told, what); \
        REAL(name)(a, b, c, d, e, f, g, h, i, j, k); \
    }
UNSEEN("taskloop", GOMP_taskloop)
UNSEEN("doacross loops", GOMP_doacross_post)
UNSEEN("target regions", GOMP_target)
UNSEEN("target regions", GOMP_target_ext)
UNSEEN("teams", GOMP_teams_reg)
UNSEEN("events", omp_fulfill_event)
