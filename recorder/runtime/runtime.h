/* What the parts of the run-time library share, with the headers that most need. Each includes it first. */
#pragma once
#define _GNU_SOURCE
#include <dlfcn.h>
#include <errno.h>
#include <fcntl.h>
#include <limits.h>
#include <linux/futex.h>
#include <pthread.h>
#include <signal.h>
#include <stdarg.h>
#include <stdatomic.h>
#include <stdio.h>
#include <stdlib.h>
#include <string.h>
#include <sys/mman.h>
#include <sys/resource.h>
#include <sys/stat.h>
#include <sys/syscall.h>
#include <time.h>
#include <unistd.h>
#include "cells.h"

/* the C library's own */
void *__libc_malloc(size_t);
void __libc_free(void *);

#pragma GCC visibility push(hidden)
#define PUBLIC __attribute__((visibility("default")))
#define CALLER ((uint64_t)__builtin_return_address(0))
/* of mmap, with nothing behind it yet */
#define NEW_MEMORY (MAP_PRIVATE | MAP_ANONYMOUS | MAP_NORESERVE)
/* for the compiler; the processor stores in this order, and loads too */
#define KEEP_ORDER() __asm__ volatile("" ::: "memory")

/* The functions that a thread is in are a node of a tree (calls.c): the innermost, and the others' node. */
typedef struct context {
    struct context *outer;
    uint64_t caller, function, way;    /* way: as way_to returns it */
    uint64_t extent;                   /* how many bytes its stack pointer is below the one further out */
    uint64_t kind;                     /* as cells.h has it in a use */
    uint32_t number, depth;            /* in the record; how many functions it has */
    uint32_t inner, after, next;       /* entered from here last; from the same one after; in its bucket */
} context;
#define NOT_RECORDED (~0u)             /* in the place of a number */

/* A function that a thread is in. */
typedef struct {
    context *in;
    uint64_t stack;                    /* its stack pointer */
    context own;                       /* where there is no room for one that stays */
} frame;

enum { RECENT_READS = 4 };             /* a loop that waits reads no more */
enum { NAME_ROOM = 16 };               /* the system keeps no more of a thread's name, with its end */

typedef struct thread {
    /* What a quick hook uses is in one line of the processor's cache. */
    uint32_t serial;                   /* no other's ever, from 1 */
    volatile char inside;              /* the recorder: hooks met now are not recorded */
    volatile char deferred;            /* a signal came meanwhile and waits for the end of the hook */
    volatile char asks;                /* a hook has begun that isn't quick and has yet to ask for the turn */
    /* on the record, or for a new thread, where it may sleep: then nobody takes the turn over */
    volatile char works;
    uint64_t steps;                    /* replay.c: so far */
    uint64_t limit;                    /* hooks may be quick (hold.h) until it made so many steps; or 0 */
    /* then its steps and this are the position of the next access that is held back, and IS_REPEATED */
    uint64_t base;
    uint64_t last;                     /* its last hook: a read as read_at, a write as write_at, or 0 */
    const context *in;                 /* the functions that it is in, the outermost MOST_FRAMES */
    uint64_t kind;                     /* of that, under its locks */
    uint64_t reader;                   /* as cells.h has it in a use */
    uint32_t number;                   /* in the order of creation, from 0; or that of one that is over */
    uint32_t depth;                    /* how many functions it is in */
    uint64_t kept;                     /* its steps that were in its turns, but for quick hooks since */
    uint64_t quick_from;               /* since so many steps its hooks may be quick */
    pid_t system_id;
    pthread_t handle;
    _Atomic int wakes;                 /* futex: raised to make the thread look at the turn again */
    _Atomic int began;                 /* it was at its first hook; a futex */
    char may_be_held;                  /* there */
    volatile int place;                /* among the waiters */
    int quantum;                       /* hooks until it gives the turn to a waiter */
    int spins;                         /* how often in a row its last hook left the value as it was */
    uint32_t locks;                    /* that it took and has yet to release */
    uint64_t sum_of_locks, set;        /* their set, as cells.h has it in a use */
    /* its last ones in the record */
    struct read { record r; uint64_t changes; const context *context; } recent[RECENT_READS];
    unsigned next_recent;
    char is_over;                      /* joined, or detached and gone */
    char ends;                         /* its ways to an end without a join (way_to_end) */
    char is_cancelled_anywhere;        /* by pthread_setcanceltype */
    int cancel_state;                  /* when its hook ends */
    uint64_t range;                    /* how many bytes its last record accesses */
    char name[2 * NAME_PIECE];         /* that the program gave it, and zeros */
    char idles;                        /* in a replay: it waits for what others do, so it is in no hurry */
    struct thread *next_ended;
    int exit_rounds;                   /* of destructors of thread-specific data */
    void *(*function)(void *);         /* what it runs: of a C11 thread half of the result counts */
    void *argument;
    void *stack;
    size_t stack_size;
    sigset_t mask;                     /* before a signal was deferred */
    const context *told;               /* those that it is in, as the record has it; or null */
    frame *frames, own_frames[];       /* MOST_FRAMES, the outermost first; the second for all but fibers */
} thread;

typedef const volatile void *pointer; /* to what a record is about */

static inline size_t least(size_t n, size_t m) { return n < m ? n : m; }

void deliver_deferred(thread *t);
/* Handlers of signals may come from here on, and those of the ones that came before do. */
static inline void end_hook(thread *t) {
    KEEP_ORDER();
    t->inside = 0;
    KEEP_ORDER();
    if (__builtin_expect(t->deferred, 0)) deliver_deferred(t);
}

/* Only right after a write's hook may come that of the read of the same copy. */
static inline int is_write(uint64_t last) { return (last >> 48 & 3) == OP_WRITE; }
static inline void end_copy(thread *t) { if (is_write(t->last)) t->last = 0; }

/* The steps that were in its turns, for any thread: asked for behind its steps, so where a hook was counted
   in these it is seen that it asks. */
static inline uint64_t steps_in_turns(const thread *t) {
    uint64_t steps = t->steps;
    KEEP_ORDER();
    return t->limit && !t->asks ? steps : t->kept;
}

/* turn.c: who runs.  Each hook is enter .. leave; enter returns no thread if nothing is to be recorded. */
enum yields { NEVER_YIELD, YIELDS_BY_LIST, MAY_YIELD };      /* by the list alone: in a replay */
extern __thread thread *self;
extern volatile int recording;         /* in a process made by fork it is 0 at once; `was_recording` isn't */
extern int was_recording;
void begin_turns(int slice, uint64_t seed);                  /* with 0 slices of many lengths */
void restart_turns(thread *t);         /* in a process made by fork, where t is alone; it has the turn */
void for_all_threads(void (*step)(thread *t));               /* that are there; with the turn */
int end_turns(void);                   /* all threads run free from here on; did they take turns before? */
thread *new_thread(void);
void end_thread(thread *t);            /* it is joined, and the record has that; or it was not started */
enum way_to_end { IS_DETACHED = 1, LEAVES = 2 };             /* LEAVES: its last destructors run */
void come_to_end(thread *t, enum way_to_end way);            /* after both it is over as soon as it is gone */
int number_thread(thread *t);
void wait_for_start(thread *t, thread *child);
thread *thread_of(pthread_t handle);
thread *newest_with(void *argument);   /* that isn't over */
thread *enter(enum yields yields);
thread *enter_access(enum yields yields);                    /* to put one record, and nothing before */
void leave(thread *t);
void begin_inside(thread *t);          /* no signal is handled, nor the thread cancelled, until it leaves */
void end_inside(thread *t);            /* what isn't a hook ends with this alone: quick ones may go on */
void give_turn(thread *t);
void take_turn(thread *t);
int keep_turn(thread *t);
void keep_turn_after_call(thread *t);
int let_another_run(thread *t);        /* if it may help; says whether */
int note_unusual(thread *t);           /* with the turn: what was asked for wasn't there, say; returns 1 */
int was_unusual(thread *t);            /* with the turn, in a replay: it was so at this step; else 0 */
uint64_t same_value(thread *t, uint64_t value);              /* with the turn; in a replay that of the list */
int waits_for_list(thread *t);         /* in a replay, in place of a call that waits; 0: the call has to */
void note_spin(thread *t, uint64_t last);        /* in a hook that leaves the value as it was */
/* who has the turn, where no waiter doubts that it needs it still; else NOBODY_IS_QUICK */
extern thread *volatile quick_holder;
#define NOBODY_IS_QUICK ((thread *)1)

/* replay.c: the order of turns.  Under the guard, where nothing else is said. */
extern volatile int is_replaying;      /* there is a list that says who gets the turn */
void open_list(void);                  /* by the first thread, before there is a second one; it may sleep */
void extend_list(void);                /* without the turn; it may sleep */
void close_list(void);                 /* the recording has ended */
void leave_list(thread *t);            /* in a process made by fork */
void unlock_list(void);
void begin_turn(thread *t);
void end_turn(thread *t);
void begin_replay(const char *path);   /* before the first turn */
void end_replay(const char *why);
/* by the list; the holder, or nobody, has not given it to t */
int may_get_turn(const thread *t, const thread *holder);
uint32_t next_thread(const thread *holder);                  /* who alone may, by the number */
uint32_t due_thread(void);             /* whose turn it is */
int steps_to_go(const thread *t);      /* in its turn, which has begun */
int next_is_unusual(const thread *t);  /* moves on past what the list has of this step */
void add_unusual(const thread *t);
uint64_t next_value(const thread *t, uint64_t otherwise);
void add_value(const thread *t, uint64_t value);

#define DONE(call) ({ call; 0; })      /* of a call that returns nothing */
/* A call that may block, made in a hook: without the turn, and its own hooks (of handlers) are recorded. */
#define BLOCKING(t, call) ({ \
    give_turn(t); \
    leave(t); \
    __typeof__(call) result_ = (call); \
    begin_inside(t); \
    take_turn(t); \
    result_; \
})

/* calls.c: the functions that it is in. */
extern int records_calls;              /* 0 where the user asks for none */
uint64_t way_to(const thread *t, uint32_t depth, uint64_t caller);
context *context_at(const thread *t, uint32_t depth);        /* of so many of the functions that it is in */
void set_depth(thread *t, uint32_t depth);
void set_locks(thread *t, uint64_t sum);                     /* it holds these, by a sum; or none, by 0 */
void enter_context(frame *f, context *outer, context new);
void forget_contexts(void);            /* the record is another one */
void forget_told(thread *t);           /* the same of this thread */
void unlock_contexts(void);
uint64_t place_of_frame(const thread *t, uint32_t depth);   /* as in a record OP_PLACE */
int is_kept_context(const context *c); /* does it stay as it is? */
typedef struct { frame innermost; uint32_t depth; } interrupted;
interrupted push_frame(thread *t, uint64_t caller, uint64_t function);
void pop_frame(thread *t, const interrupted *before);
static inline int is_numbered(const context *c) { return c->number <= (1 << CONTEXT_BITS) - 1; }
static inline uint32_t recordable_depth(const thread *t) {
    return t->depth < MOST_FRAMES ? t->depth : MOST_FRAMES;
}

/* file.c: the files and their descriptors. */
enum kept_file { RECORD, TURNS, PROC };
enum { COMMAND_BYTES = 1024 };         /* of the header's line with the command, with its end */
void begin_messages(void);
/* a line on standard error, if it still is that */
void tell(const char *format, ...) __attribute__((format(printf, 1, 2)));
int is_kept(int descriptor);           /* is it the recorder's own? */
unsigned next_kept(unsigned from);     /* the lowest such number from there on, or ~0u */
void leave_number(int descriptor);     /* so that the program can have it */
int keep_path(const char *path);
int has_number(void);                  /* is there a record for each process? */
int refuse(const char *path);          /* says that it can't be written, as errno has it; returns 0 */
int open_file(const char *command, uint64_t first_bytes, uint64_t segment); /* will it be allowed so many? */
void drop_segment(uint64_t segment);   /* deletes its file, if that is there */
#define ANY_TURNS "shb-turns "        /* a list of turns begins with that */
int open_turns(uint64_t first_bytes);  /* the list beside the record */
int add_space(enum kept_file which, uint64_t from, uint64_t bytes);
int write_file(const char *from, uint64_t bytes);
void cut_file(enum kept_file which, uint64_t bytes);
void *map_file(enum kept_file which, void *at, uint64_t bytes);          /* or MAP_FAILED */
int take_file(void);
void leave_file(enum kept_file which);
int read_task_file(pid_t system_id, const char *leaf, char *text, int size);
uint64_t free_space(void);             /* bytes of the disk for more of the record; -1 where nobody says */

/* recording.c: the record. */
extern int stall_seconds;
time_t seconds_now(void);              /* since any moment */
/* most_records: 0, as many as there is room for; most_cells: bytes of cells (cells.h) */
int open_recording(const char *path, uint64_t most_records, uint64_t most_cells);
int leave_recording(void);             /* in a process made by fork; does it go on in memory? */
extern int in_memory;                  /* it has no file yet */
int move_to_file(void);
void lose_record(void);                /* its process starts threads, and it can't get one */
void close_recording(void);
extern uint64_t segment_records;       /* after so many a segment of the record ends; 0: there is one alone */
int is_segment_full(void);
void next_segment(thread *t);          /* in a hook, before it does anything */
void stop_recording(const char *reason);
void note_end(const char *how);
const char *own_end(void);             /* as note_end takes it, where nothing stopped the recording */
/* a hook met a thread that nobody saw begin: its accesses are missed; a library's without hooks may call */
void note_stranger(void);
void note_text(const char *line);      /* adds a line to the header */
const char *own_command(void);         /* that line of the header */
void unlock_record(void);
void give_back_room(void);
int limit_record(uint64_t addresses);
extern uint64_t changes;               /* records of anything but reads so far, and writes held back */
/* afterwards t has the turn, unless the recording has ended, and keeps it while it works */
int begin_work(thread *t);
void put(thread *t, enum operation operation, pointer address, uint64_t size, uint64_t caller);
/* A hook of its own for one record. */
void note_bytes(enum yields yields, enum operation operation, pointer p, uint64_t size, uint64_t caller);
void note(enum operation operation, pointer object, uint64_t caller);
void put_of(thread *t, const thread *ended, enum operation operation, pointer object, uint64_t caller);
void put_name(thread *t, thread *named, const char *name);
uint64_t begin_quick(thread *t);       /* with the turn, at a hook's end: so many hooks may be quick now */
void end_quick(thread *t);             /* with the turn; or under the guard, by the one who took it over */

/* modules.c */
typedef struct { uint64_t low, high; int is_in_c; } module;
extern module modules[];        /* those compiled with -fsanitize=thread */
extern int module_count;
/* the one of these in which it lies, or null */
static inline const module *module_of(uint64_t code) {
    for (int i = 0; i < module_count; i++)
        if (code >= modules[i].low && code < modules[i].high) return &modules[i];
    return 0;
}
static inline int instrumented(uint64_t caller) { return module_of(caller) != 0; }
int tells_its_own_order(uint64_t caller); /* the begin and end of its objects are not recorded */
void *next_symbol(const char *name);
void *library_symbol(const char *name);                      /* also of a library that came by dlopen */
int program_has(const char *name);     /* or a library before this one: a function that this one has, too */
int is_behind_the_c_library(void);     /* do calls of the program go to that, and not to this library? */
void note_modules(void);

/* A function that one here stands for. All are looked up when the program begins, for a handler of a signal
   may not look for a name. */
typedef struct { const char *name; void *function; } forwarded;
extern forwarded __start_forwarded[], __stop_forwarded[];
/* of one that wasn't there then; the program ends where no library has it */
void *find_forwarded(forwarded *which);
static inline void *function_if_any(forwarded *f) {
    return f->function ? f->function : (f->function = next_symbol(f->name));
}
static inline void *function_of_name(forwarded *f) {
    return f->function ? f->function : find_forwarded(f);
}
#define FORWARDED(name) ({ \
    static forwarded forwarded_ __attribute__((section("forwarded"), aligned(16), used)) = {name, 0}; \
    &forwarded_; \
})
#define REAL_IF_ANY(f) ((__typeof__(&f))function_if_any(FORWARDED(#f)))
#define REAL_OF_NAME(name, type) ((type)function_of_name(FORWARDED(name)))
#define REAL(f) REAL_OF_NAME(#f, __typeof__(&f))
/* One that a header declares with other types, or under another name: known by its symbol. */
#define WRAPS(type, name, parameters) \
    type as_##name parameters __asm__(#name); \
    PUBLIC type as_##name parameters
#define REAL_AS(name) REAL_OF_NAME(#name, __typeof__(&as_##name))
/* One that linkers don't see: a C++ library that is linked into a program has its own. */
#define WRAPS_HIDDEN(version, type, name, parameters) \
    PUBLIC __attribute__((symver(#name "@" #version))) type hooked_##name parameters
#define REAL_HIDDEN(name) REAL_OF_NAME(#name, __typeof__(&hooked_##name))
/* Its arguments, numbers and pointers, are words, whatever their types are: it gets as many as any of its
   family has, and hands all on. Of a word that is an int the upper half may be anything. */
typedef uint64_t word;

/* accesses.c: a quick hook (hold.h) of a range whose cells have the use in a first phase. Is it held back? */
int hold_range(enum operation operation, uint64_t address, uint64_t size, uint64_t caller);
int load_acquire(const int *p, uint64_t caller); /* an atomic load by the caller, who waits for nobody */

/* memory.c */
void *allocated(void *p, size_t size, uint64_t caller);      /* notes new variables; returns p */
extern int uses_whole_blocks;          /* may code with hooks ask how large a block is, and use all of it? */

/* signals.c */
void watch_crashes(void);
extern const char __start_atomics[], __stop_atomics[];       /* the code of atomic operations */

/* descriptors.c */
void unlock_keys(void);                /* in a process made by fork: another thread may have had their lock */
int copy_in(void *to, const void *from, size_t bytes); /* of what may not be there; the call will say so */

/* waits.c */
void let_others_run(void);             /* gives the turn up before a call that may wait */

/* threads.c */
extern volatile int others;            /* threads that were created and not joined */
void begin_child(void);                /* in a process made by fork, or as by it */
void note_name(pthread_t handle, const char *name);          /* the program gives a thread this name */
#pragma GCC visibility pop
