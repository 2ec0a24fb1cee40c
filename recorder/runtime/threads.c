/* The begin and the end of the program and of its threads. */
#include "hold.h"
#include <sched.h>
#include <sys/auxv.h>
#include <threads.h>

enum { CELL_MEGABYTES = 1024 };        /* without SHB_CELLS */
#define MOST_SET (1ull << 40)          /* of records and megabytes: no machine has as many */
volatile int others;

/* ---- the program ---- */
extern void *__libc_stack_end;
static pthread_key_t at_exit;
static pid_t process;

/* A number from `least` to `most`. Any other text is ignored, and said to be. */
static uint64_t setting(const char *name, uint64_t least, uint64_t most, uint64_t otherwise) {
    const char *value = getenv(name);
    char *end;
    errno = 0;
    uint64_t n = value ? strtoull(value, &end, 10) : 0;
    if (value && *value >= '0' && *value <= '9' && !*end && !errno && n >= least && n <= most) return n;
    if (value)
        tell("%s takes a number from %lu to %lu, not `%s`, and is ignored", name, least, most,
             value);
    return otherwise;
}

/* The thread's stack is new variables.  The main thread's is noted for its name alone. */
static int find_stack(thread *t) {
    pthread_attr_t attributes;
    t->stack_size = 8 << 20;
    t->stack = (char *)__libc_stack_end - t->stack_size;
    if (!t->number) return 1;
    if (pthread_getattr_np(pthread_self(), &attributes)) return 0;
    pthread_attr_getstack(&attributes, &t->stack, &t->stack_size);
    pthread_attr_destroy(&attributes);
    return 1;
}

static void begin_thread(thread *t, uint64_t function) {
    t->system_id = syscall(SYS_gettid);
    t->handle = pthread_self();
    t->inside = 1;
    self = t;
    pthread_setspecific(at_exit, t);
    int has_stack = find_stack(t);     /* it may sleep, so without the turn */
    take_turn(t);
    if (has_stack) put(t, OP_START, t->stack, t->stack_size, function);
    leave(t);
}

/* The robust mutexes that it has: the system gives them on when it has ended. */
static void release_robust(const thread *t) {
    struct robust_list_head *all;
    size_t size;
    if (syscall(SYS_get_robust_list, 0, &all, &size) || !all) return; /* a sandbox may refuse to have one */
    for (uint64_t next = (uint64_t)all->list.next & ~1ull; next != (uint64_t)all; next = *(uint64_t *)next
         & ~1ull)
        note(OP_UNLOCK, (void *)(next + all->futex_offset), (uint64_t)t->function + 1);
}

static void thread_exits(void *t_) {   /* runs again in each round of destructors, until the last */
    thread *t = t_;
    int is_last = ++t->exit_rounds == PTHREAD_DESTRUCTOR_ITERATIONS;
    if (is_last) release_robust(t);
    else pthread_setspecific(at_exit, t);
    if (is_last && enter(MAY_YIELD)) {
        come_to_end(t, LEAVES);
        leave(t);
    }
    set_depth(t, 0);                   /* of functions in C that pthread_exit left */
    let_others_run();
}

/* ---- a process made by fork: one thread, and a record of its own from here on ---- */
static int is_unrecorded_child;

void begin_child(void) {
    int was = was_recording;
    recording = was_recording = 0;
    others = 0;
    is_unrecorded_child = was;
    unlock_keys();
    if (!was || !leave_recording() || !self) {
        self = 0;
        return;
    }
    is_unrecorded_child = 0;
    process = getpid();
    restart_turns(self);
    begin_inside(self);
    put(self, OP_START, self->stack, self->stack_size, 0);
    leave(self);
}

/* What makes a process without fork's handlers. With CLONE_VM it uses its parent's memory, as by vfork. */
PUBLIC pid_t _Fork(void) {
    pid_t made = REAL(_Fork)();
    if (!made) begin_child();
    return made;
}

typedef struct { int (*function)(void *); void *argument; } child_start;

static int run_child(void *start_) {
    child_start *start = start_;
    begin_child();
    return start->function(start->argument);
}

WRAPS(int, clone, (int (*function)(void *), void *stack, int flags, void *argument, word parent, word tls,
                   word child)) {
    child_start start = {function, argument};
    if (flags & CLONE_VM) return REAL_AS(clone)(function, stack, flags, argument, parent, tls, child);
    return REAL_AS(clone)(run_child, stack, flags, &start, parent, tls, child);
}

/* It starts threads and nobody records them: it says so, once. */
static void tell_of_child(void) {
    if (is_unrecorded_child)
        tell("a process made by fork starts threads and runs unrecorded (%%p in SHB_RECORD "
             "gives each process a record of its own)");
    is_unrecorded_child = 0;
    lose_record();
}

/* A process made by vfork uses its parent's memory and says nothing. Where nothing is recorded any more no
   system call is made: a filter of the program's may forbid it (limits.c). */
static int is_own(void) { return recording && process && getpid() == process; }

/* What a process gives up it may need to make a file: its record has one before. */
static void give_up(void) {
    int saved = errno;
    thread *t = in_memory && is_own() ? enter(NEVER_YIELD) : 0;
    if (t && begin_work(t)) move_to_file();
    if (t) t->works = 0, leave(t);
    errno = saved;
}

#define GIVES_UP(name) \
    WRAPS(int, name, (word first, word second, word third)) { \
        give_up(); \
        return REAL_AS(name)(first, second, third); \
    }
GIVES_UP(setuid) GIVES_UP(seteuid) GIVES_UP(setreuid) GIVES_UP(setresuid) GIVES_UP(setfsuid)
GIVES_UP(setgid) GIVES_UP(setegid) GIVES_UP(setregid) GIVES_UP(setresgid) GIVES_UP(setfsgid)
GIVES_UP(setgroups) GIVES_UP(initgroups) GIVES_UP(chroot)

__attribute__((destructor(101))) static void end(void) { if (is_own()) close_recording(); }

/* shb-record has this library loaded first in the program that it starts, and in none that this one starts:
   what they have there. */
static void restore_preload(void) {
    const char *others = getenv("SHB_PRELOAD");
    if (!others) return;
    if (*others) setenv("LD_PRELOAD", others, 1);
    else unsetenv("LD_PRELOAD");
    unsetenv("SHB_PRELOAD");
}

/* A program with other rights than its caller's does nothing that the environment asks, nor hands that on. */
static int has_rights_of_its_own(void) {
    if (!getauxval(AT_SECURE)) return 0;
    unsetenv("SHB_PRELOAD");
    unsetenv("SHB_RECORD");
    return 1;
}

__attribute__((constructor(102))) static void begin(void) {  /* after look-ups, whose blocks are no hooks */
    if (has_rights_of_its_own()) return;
    restore_preload();
    const char *path = getenv("SHB_RECORD");
    if (!path || !*path || process) return;
    process = getpid();
    begin_messages();
    stall_seconds = setting("SHB_STALL", 1, INT_MAX, 60);
    records_calls = setting("SHB_STACKS", 0, 1, 1);
    segment_records = strstr(path, "%s") ? setting("SHB_SEGMENT", 1, MOST_SET, 0) : 0;
    if (!open_recording(path, setting("SHB_RECORDS", 1, MOST_SET, 0),
                        setting("SHB_CELLS", 0, MOST_SET, CELL_MEGABYTES) << 20)) return;
    if (!has_number()) unsetenv("SHB_RECORD"); /* a program started by this one would write over it */
    note_modules();
    if (is_behind_the_c_library()) {
        note_end("the C library comes before the recorder's, so no thread is seen");
        tell("calls of pthread_create go to the C library, which the program is linked with "
             "before -ltsan (or that comes by dlopen): the program runs unrecorded");
        return;
    }
    thread *t = new_thread();
    if (!t || !number_thread(t) || pthread_key_create(&at_exit, thread_exits)
        || pthread_atfork(0, 0, begin_child)) return;
    at_quick_exit(end);                                      /* the last of its handlers */
    if (getenv("SHB_REPLAY")) begin_replay(getenv("SHB_REPLAY"));
    begin_turns(setting("SHB_SLICE", 1, INT_MAX / 2, 0), setting("SHB_SEED", 0, -1, 0));
    begin_thread(t, 0);
    watch_crashes();
}

/* Ways out that run no destructor. */
#define LEAVES(name) \
    PUBLIC void name(int status) { \
        if (is_own()) close_recording(); \
        REAL(name)(status); \
        __builtin_unreachable(); \
    }
LEAVES(_exit)
LEAVES(_Exit)

#define EXECS(name) \
    WRAPS(int, name, (word program, word words, word environment)) { \
        int own = is_own(); \
        if (own) note_end(own_end()); \
        int r = REAL_AS(name)(program, words, environment); \
        if (own) note_end(""); \
        return r; \
    }
EXECS(execve) EXECS(execv) EXECS(execvp) EXECS(execvpe) EXECS(fexecve)

/* The words of a list up to its null pointer, as an array; `more` is after that. */
#define EXECS_LISTED(name, call) \
    PUBLIC int name(const char *path, const char *first, ...) { \
        va_list more; \
        int count = 1; \
        va_start(more, first); \
        while (va_arg(more, char *)) count++; \
        va_end(more); \
        char *array[count + 1]; \
        array[0] = (char *)first; \
        va_start(more, first); \
        for (int i = 1; i <= count; i++) array[i] = va_arg(more, char *); \
        int r = call; \
        va_end(more); \
        return r; \
    }
EXECS_LISTED(execl, execv(path, array))
EXECS_LISTED(execlp, execvp(path, array))
EXECS_LISTED(execle, execve(path, array, va_arg(more, char **)))

/* What was done before a function was registered, also as a static's destructor, comes before it runs. */
typedef struct { void (*function)(void *); void *argument; } exit_call;
static void run_at_exit(void *call_) {
    exit_call *call = call_;
    note(OP_WAIT, call, (uint64_t)call->function + 1);
    call->function(call->argument);
}
WRAPS(int, __cxa_atexit, (void (*function)(void *), void *argument, void *module)) {
    exit_call *call = others && recording ? __libc_malloc(sizeof *call) : 0;
    if (!call) return REAL_AS(__cxa_atexit)(function, argument, module);
    *call = (exit_call){function, argument};
    note(OP_POST, call, CALLER);
    return REAL_AS(__cxa_atexit)(run_at_exit, call, module);
}
/* A program may have it from a part of the C library that is linked into it. */
PUBLIC int atexit(void (*function)(void)) { return as___cxa_atexit((void (*)(void *))function, 0, 0); }

/* ---- threads ---- */
static void *run(void *t_) {
    thread *t = t_;
    begin_thread(t, (uint64_t)t->function);
    pthread_sigmask(SIG_SETMASK, &t->mask, 0);
    void *result = t->function(t->argument);
    let_others_run();
    return result;
}

/* Starts the thread with all signals blocked, for a handler would run in it before it has begun. */
static int start_blocked(thread *t, thread *child, pthread_t *created, const pthread_attr_t *attributes) {
    /* others have no turn, so it is changed and changed back */
    pthread_attr_t *its = (pthread_attr_t *)attributes;
    sigset_t all, before;
    sigfillset(&all);
    pthread_sigmask(SIG_SETMASK, &all, &before);
    int is_own = its && !pthread_attr_getsigmask_np(its, &child->mask);
    if (is_own) pthread_attr_setsigmask_np(its, &all);
    else child->mask = t->deferred ? t->mask : before;
    int error = REAL(pthread_create)(created, attributes, run, child);
    if (is_own) pthread_attr_setsigmask_np(its, &child->mask);
    pthread_sigmask(SIG_SETMASK, &before, 0);
    return error;
}

/* Is it never joined? Not so of Qt's, which are waited for by a call of Qt's own (qt.c). */
static int is_detached(const pthread_attr_t *attributes, uint64_t caller) {
    int state = PTHREAD_CREATE_JOINABLE;
    if (attributes) pthread_attr_getdetachstate(attributes, &state);
    return state == PTHREAD_CREATE_DETACHED && !tells_its_own_order(caller) ? IS_DETACHED : 0;
}

/* Records the fork and starts the thread; NOT_STARTED where it can't have a number. */
enum { NOT_STARTED = -1 };
static int create_in_hook(thread *t, pthread_t *handle, const pthread_attr_t *attributes,
                          void *(*function)(void *), void *argument, uint64_t caller) {
    begin_work(t);
    thread *child = new_thread();
    move_to_file();
    open_list();
    t->works = 0;
    if (!child || !number_thread(child)) {
        stop_recording("a thread too many");
        return NOT_STARTED;
    }
    child->function = function;
    child->argument = argument;
    child->ends = is_detached(attributes, caller);
    others++;
    put(t, OP_FORK, (void *)(uint64_t)child->number, 0, caller);
    pthread_t created;                 /* the caller's only when it is known: others may read that */
    int error = start_blocked(t, child, &created, attributes);
    if (!error) wait_for_start(t, child);
    keep_turn_after_call(t);
    if (error) others--, end_thread(child);
    else *handle = child->handle = created;
    return error;
}

static int create(pthread_t *handle, const pthread_attr_t *attributes, void *(*function)(void *),
                  void *argument, uint64_t caller) {
    thread *t = enter(MAY_YIELD);
    if (!t) tell_of_child();
    int error = t ? create_in_hook(t, handle, attributes, function, argument, caller) : NOT_STARTED;
    if (t) leave(t);
    if (!error && instrumented(caller)) hook(OP_WRITE, (uint64_t)handle, sizeof *handle, caller);
    return error;
}

PUBLIC int pthread_create(pthread_t *handle, const pthread_attr_t *attributes, void *(*function)(void *),
                          void *argument) {
    int error = create(handle, attributes, function, argument, CALLER);
    return error == NOT_STARTED ? REAL(pthread_create)(handle, attributes, function, argument) : error;
}

WRAPS(int, thrd_create, (thrd_t *handle, void *(*function)(void *), void *argument)) {
    int error = create(handle, 0, function, argument, CALLER);
    if (error == NOT_STARTED) return REAL_AS(thrd_create)(handle, function, argument);
    return !error ? thrd_success : error == EAGAIN || error == ENOMEM ? thrd_nomem : thrd_error;
}

#define JOIN(name) \
    WRAPS(int, name, (pthread_t h, word value, word third, word fourth)) { \
        thread *t = enter(MAY_YIELD); \
        if (!t) return REAL_AS(name)(h, value, third, fourth); \
        thread *child = thread_of(h); \
        int error = BLOCKING(t, REAL_AS(name)(h, value, third, fourth)); \
        if (!error && child) { \
            others--; \
            put(t, OP_JOIN, (void *)(uint64_t)child->number, 0, CALLER); \
            end_thread(child); \
        } \
        leave(t); \
        return error; \
    }
JOIN(pthread_join) JOIN(pthread_tryjoin_np) JOIN(pthread_timedjoin_np) JOIN(pthread_clockjoin_np)
JOIN(thrd_join)

#define DETACHES(name, type) \
    PUBLIC int name(type h) { \
        thread *t = enter(MAY_YIELD), *detached = t ? thread_of(h) : 0; \
        if (detached) come_to_end(detached, IS_DETACHED); \
        int error = REAL(name)(h); \
        if (t) leave(t); \
        return error; \
    }
DETACHES(pthread_detach, pthread_t)
DETACHES(thrd_detach, thrd_t)

PUBLIC int pthread_setcanceltype(int type, int *before) {
    if (self) self->is_cancelled_anywhere = type == PTHREAD_CANCEL_ASYNCHRONOUS;
    return REAL(pthread_setcanceltype)(type, before);
}

/* ---- names of threads ---- */
void note_name(pthread_t handle, const char *name) {
    int saved = errno;
    thread *t = enter(MAY_YIELD), *named = t ? thread_of(handle) : 0;
    if (named) put_name(t, named, name);
    if (t) leave(t);
    errno = saved;
}

PUBLIC int pthread_setname_np(pthread_t handle, const char *name) {
    int error = REAL(pthread_setname_np)(handle, name);
    if (!error) note_name(handle, name);
    return error;
}
