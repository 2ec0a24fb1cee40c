/* What a program tells ThreadSanitizer of itself, by the names of its library: so each program that was built
   for it is linked and runs. What orders threads is recorded; what asks for silence (benign races, accesses
   to be ignored) is not followed (forward.S). And what it may ask of that library, by the same names. */
#include "runtime.h"
#include <malloc.h>
#include <ucontext.h>

/* ---- order ---- */
#define NOTES(name, operation, ...) PUBLIC void name(__VA_ARGS__ void *p) { note(operation, p, CALLER); }
#define NOTES_AT(name, operation) NOTES(name, operation, const char *file, int line,)
NOTES(__tsan_acquire, OP_WAIT) NOTES(__tsan_java_acquire, OP_WAIT)
NOTES(__tsan_release, OP_POST) NOTES(__tsan_java_release, OP_POST) NOTES(__tsan_java_release_store, OP_POST)
NOTES_AT(AnnotateHappensBefore, OP_POST) NOTES_AT(WTFAnnotateHappensBefore, OP_POST)
NOTES_AT(AnnotateHappensAfter, OP_WAIT) NOTES_AT(WTFAnnotateHappensAfter, OP_WAIT)

PUBLIC void AnnotateThreadName(const char *file, int line, const char *name) {
    if (name) note_name(pthread_self(), name);
}

/* ---- locks that the program makes itself, each as a reader-writer lock ---- */
enum { READ_LOCK = 1 << 3, TRY_FAILED = 1 << 5 };            /* of the flags */

static void note_taken(pointer lock, int to_write, uint64_t caller) {
    note(to_write ? OP_WRITE_LOCK : OP_READ_LOCK, lock, caller);
}

PUBLIC void AnnotateRWLockAcquired(const char *file, int line, pointer lock, long to_write) {
    note_taken(lock, to_write, CALLER);
}
NOTES_AT(AnnotateRWLockReleased, OP_RW_UNLOCK)
PUBLIC void __tsan_mutex_post_lock(void *lock, unsigned flags, int depth) {
    if (!(flags & TRY_FAILED)) note_taken(lock, !(flags & READ_LOCK), CALLER);
}
PUBLIC int __tsan_mutex_pre_unlock(void *lock, unsigned flags) {
    note(OP_RW_UNLOCK, lock, CALLER);
    return 1;                          /* how often it was held */
}

/* ---- a virtual machine of Java: objects and locks of its own, by their addresses ---- */
PUBLIC void __tsan_java_alloc(void *p, size_t size) { allocated(p, size, CALLER); }
PUBLIC void __tsan_java_move(void *from, void *to, size_t size) { allocated(to, size, CALLER); }
PUBLIC void __tsan_java_mutex_lock(void *lock) { note_taken(lock, 1, CALLER); }
PUBLIC void __tsan_java_mutex_lock_rec(void *lock, int depth) { note_taken(lock, 1, CALLER); }
PUBLIC void __tsan_java_mutex_read_lock(void *lock) { note_taken(lock, 0, CALLER); }
NOTES(__tsan_java_mutex_unlock, OP_RW_UNLOCK) NOTES(__tsan_java_mutex_read_unlock, OP_RW_UNLOCK)
PUBLIC int __tsan_java_mutex_unlock_rec(void *, unsigned) __attribute__((alias("__tsan_mutex_pre_unlock")));

/* ---- fibers: a switch gives what was done before, and the switch to the same fiber takes it ---- */
enum { NO_ORDER = 1 };
typedef struct { frame *frames; uint32_t depth; } fiber;     /* its functions while no thread runs it */
static __thread fiber *running, first_fiber;
PUBLIC void *__tsan_get_current_fiber(void) { return running ? running : &first_fiber; }

/* Further out than its own functions are those in which this thread makes it, so many at most, and the call
   that makes it. None of them is left while it runs. */
enum { MOST_OUTER = 16 };
static void note_where_made(fiber *new, uint64_t caller, uint64_t function) {
    thread *t = self;
    if (!t || !records_calls) return;
    uint32_t end = recordable_depth(t), from = end > MOST_OUTER ? end - MOST_OUTER : 0;
    for (; from <= end; from++) {
        frame *f = &new->frames[new->depth];
        context like = from < end ? *t->frames[from].in : (context){.caller = caller, .function = function};
        enter_context(f, new->depth ? f[-1].in : context_at(t, 0), like);
        f->stack = ~0ull;
        new->depth++;
    }
}
PUBLIC void *__tsan_create_fiber(unsigned flags) {
    size_t size = MOST_FRAMES * sizeof(frame);
    fiber *new = __libc_malloc(sizeof *new);
    frame *frames = mmap(0, size, PROT_READ | PROT_WRITE, NEW_MEMORY, -1, 0);
    if (!new || frames == MAP_FAILED) {                      /* whose accesses would be another's */
        stop_recording("there is no memory for a fiber");
        return 0;
    }
    *new = (fiber){frames, 0};
    note_where_made(new, CALLER, (uint64_t)__tsan_create_fiber + 1);
    return new;
}
PUBLIC void __tsan_destroy_fiber(void *old) {
    if (!old) return;
    munmap(((fiber *)old)->frames, MOST_FRAMES * sizeof(frame));
    __libc_free(old);
}
/* The thread is in the functions of the fiber that it runs. */
static void take_functions_of(fiber *next) {
    thread *t = self;
    if (!t) return;
    *(fiber *)__tsan_get_current_fiber() = (fiber){t->frames, t->depth};
    t->frames = next->frames;
    set_depth(t, next->depth);
}
PUBLIC void __tsan_switch_to_fiber(void *next, unsigned flags) {
    if (!next) return;
    if (!(flags & NO_ORDER)) {
        note(OP_POST, next, CALLER);
        note(OP_WAIT, next, CALLER);
    }
    take_functions_of(next);
    running = next;
}

/* Another context is in functions of its own. They aren't known but where the program told its fiber right
   before. The real function is jumped to: a context may be taken up after the call that saved it. */
#define SWITCHES_CONTEXT(name, words, ...) \
    PUBLIC __attribute__((optimize("optimize-sibling-calls"))) int name words { \
        if (self && !running) set_depth(self, 0); \
        return REAL(name)(__VA_ARGS__); \
    }
SWITCHES_CONTEXT(swapcontext, (ucontext_t *from, const ucontext_t *to), from, to)
SWITCHES_CONTEXT(setcontext, (const ucontext_t *to), to)

/* By the first the OpenMP run-time's archer sees that somebody listens; it then tells the order as above. */
PUBLIC int RunningOnValgrind(void) { return 0; }
PUBLIC double ValgrindSlowdown(void) { return 10; }
PUBLIC const char *ThreadSanitizerQuery(const char *what) {
    return strcmp(what, "pure_happens_before") ? "0" : "1";
}

/* ---- blocks: they are the C library's, which can't say whether a block is there ---- */
PUBLIC size_t __sanitizer_get_estimated_allocated_size(size_t size) { return size; }
PUBLIC size_t __sanitizer_get_allocated_size(const volatile void *p) { return malloc_usable_size((void *)p); }
PUBLIC int __sanitizer_get_ownership(const volatile void *p) { return p != 0; }
PUBLIC size_t __sanitizer_get_current_allocated_bytes(void) {
    struct mallinfo2 now = mallinfo2();
    return now.uordblks + now.hblkhd;
}
PUBLIC size_t __sanitizer_get_heap_size(void) {
    struct mallinfo2 now = mallinfo2();
    return now.arena + now.hblkhd;
}
PUBLIC size_t __sanitizer_get_free_bytes(void) { return mallinfo2().fordblks; }

/* ---- reports and names of code: there are none while the program runs ---- */
PUBLIC const char *__tsan_locate_address(void *p, char *name, size_t room, void **region, size_t *bytes) {
    if (room) *name = 0;
    return "";
}
PUBLIC void __sanitizer_symbolize_pc(void *code, const char *format, char *text, size_t size) {
    if (size) *text = 0;
}
PUBLIC void __sanitizer_symbolize_global(void *p, const char *format, char *text, size_t size) {
    if (size) *text = 0;
}
PUBLIC int __sanitizer_acquire_crash_state(void) {           /* it is the first that asks who may die */
    static _Atomic int asked;
    return !atomic_exchange(&asked, 1);
}

/* ---- coverage (-fsanitize-coverage), of which nothing is written ---- */
PUBLIC __thread uint64_t __sancov_lowest_stack;

/* ---- the barrier of ThreadSanitizer's own tests: threads meet there, and it orders none of them ---- */
/* of how many they are; above is how many came. Newer tests have no more than these four bytes */
enum { THREAD_BITS = 10 };

PUBLIC void __tsan_testonly_barrier_init(_Atomic uint32_t *m, uint32_t threads) { atomic_store(m, threads); }

PUBLIC void __tsan_testonly_barrier_wait(_Atomic uint32_t *m) {
    uint32_t before = atomic_fetch_add(m, 1 << THREAD_BITS), threads = before % (1 << THREAD_BITS),
        round = (before >> THREAD_BITS) / threads, now;
    let_others_run();
    while (((now = atomic_load(m)) >> THREAD_BITS) / threads == round)
        syscall(SYS_futex, m, FUTEX_WAIT_PRIVATE, now, 0, 0, 0);
    if (((before >> THREAD_BITS) + 1) % threads == 0)
        syscall(SYS_futex, m, FUTEX_WAKE_PRIVATE, INT_MAX, 0, 0, 0);
}
