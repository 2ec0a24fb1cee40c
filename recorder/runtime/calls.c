/* The functions that each thread is in, for the call stacks of its accesses.  The compiler has each function
   call a hook as it begins and as it ends (also where an exception leaves it).  A *context* is a function
   with those further out: a node of a tree that all threads share, found again by its call.  So a hook moves
   a pointer and writes nothing: the record gets a context before its first access, and later its number. */
#include "hold.h"
#include <setjmp.h>

int records_calls = 1;

/* Where the innermost of so many functions called code without hooks, in which this caller lies: the call
   left its return address at that function's stack pointer. 0 where the caller has hooks, or that isn't
   known. (What lay on the stack by another call, or after an alloca, may be no such address; the converter
   looks whether it is in that function.) */
uint64_t way_to(const thread *t, uint32_t depth, uint64_t caller) {
    if (!depth || depth > MOST_FRAMES || instrumented(caller)) return 0;
    uint64_t stack = t->frames[depth - 1].stack, here = (uint64_t)__builtin_dwarf_cfa();
    if (stack < here || stack > (uint64_t)t->stack + t->stack_size || here < (uint64_t)t->stack) return 0;
    uint64_t way = *(uint64_t *)(stack - sizeof way);
    return instrumented(way) ? way : 0;
}

/* ---- the tree ---- */
/* the rest is for kinds */
enum { MOST_KEPT = KINDS, MOST_CONTEXTS = MOST_KEPT / 8 * 7, BUCKETS = 1 << 17, MOST_EXTENTS = 8 };
#define MOVES (~0ull)                  /* an extent that isn't known, whatever it is */
#define NO_EXTENT (~0ull - 1)          /* that of a kind */
static context kept[MOST_KEPT];        /* the first is that of no function, and stands for none */
static _Atomic uint32_t kept_count = 1, buckets[BUCKETS];

context *context_at(const thread *t, uint32_t depth) { return depth ? t->frames[depth - 1].in : kept; }

void set_depth(thread *t, uint32_t depth) {
    t->depth = depth;
    t->in = context_at(t, recordable_depth(t));
    t->kind = t->in->kind | t->set;
}

int is_kept_context(const context *c) { return c >= kept && c < kept + MOST_KEPT; }

static int is_same_call(const context *c, const context *of) {
    return c->caller == of->caller && c->function == of->function && c->way == of->way;
}

static _Atomic uint32_t *bucket_of(const context *c) {
    return &buckets[((uint64_t)c->outer + c->caller * 3 + c->function * 5) * 0x9E3779B97F4A7C15u >> 47];
}

/* The one that is there, or 0; of a call with many extents that which stands for all, as `new` does then. */
static uint32_t find_context(context *new) {
    int count = 0;
    for (uint32_t k = atomic_load(bucket_of(new)); k; k = kept[k].next) {
        if (kept[k].outer != new->outer || !is_same_call(&kept[k], new)) continue;
        if (kept[k].extent == new->extent || kept[k].extent == MOVES) return k;
        count++;
    }
    if (count >= MOST_EXTENTS) new->extent = MOVES;
    return 0;
}

/* Others may add one of the same call meanwhile, which is as good. 0 where there is no room. */
static uint32_t add_context(const context *new) {
    uint32_t most = new->extent == NO_EXTENT ? MOST_KEPT : MOST_CONTEXTS;
    uint32_t k = atomic_load(&kept_count) < most ? atomic_fetch_add(&kept_count, 1) : MOST_KEPT;
    if (k >= MOST_KEPT) return 0;
    kept[k] = *new;
    kept[k].next = atomic_load(bucket_of(new));
    while (!atomic_compare_exchange_weak(bucket_of(new), &kept[k].next, k)) ;
    return k;
}

/* ---- kinds of contexts ---- */
/* The location of an access is its own, or that of the innermost call which is in the program's own code. So
   where two contexts have the same calls, each where it comes first from within, all locations are the same:
   they are of one *kind*, however deep a recursion is. A kind is in the tree too, as a list: its first call,
   with the function that this is in, and the rest as what is further out. In C it has no more than the
   innermost calls, for there functions of the system's headers are short and seldom stand in each other. */
enum { CALLS_IN_C = 3 };

/* Null where there is no room. */
static context *kind_with(context *rest, const context *call) {
    context kind = {.outer = rest, .caller = call->caller, .function = call->function, .way = call->way,
                    .extent = NO_EXTENT};
    uint32_t k = rest ? find_context(&kind) : 0;
    if (rest && !k) k = add_context(&kind);
    return k ? &kept[k] : 0;
}

/* The call is in it, once. */
static context *kind_without(const context *kind, const context *call) {
    return is_same_call(kind, call) ? kind->outer : kind_with(kind_without(kind->outer, call), kind);
}

/* So many of its calls, the innermost ones. */
static context *inner_calls_of(context *kind, int most) {
    return kind == kept || !most ? kept : kind_with(inner_calls_of(kind->outer, most - 1), kind);
}

static uint64_t kind_of(const context *c) {
    const context call = {.caller = c->caller, .function = c->outer->function, .way = c->way};
    context *rest = c->outer->kind == NO_KIND ? 0 : &kept[c->outer->kind >> KIND_AT];
    const module *module = module_of(c->function);
    if (rest && module && module->is_in_c) rest = inner_calls_of(rest, CALLS_IN_C - 1);
    context *k = rest;
    while (k && k != kept && !is_same_call(k, &call)) k = k->outer;
    context *kind = kind_with(k == kept ? rest : k ? kind_without(rest, &call) : 0, &call);
    return kind ? (uint64_t)(kind - kept) << KIND_AT : NO_KIND;
}

/* ---- sets of locks ---- */
/* A use under locks stands for those alone that are under the same ones. But where so many sets have numbers
   the others of one, two, three and more locks share one each: of thousands of sets, as of locks in a table,
   most uses would be of a kind of their own. */
enum { SETS = SETS_APART, SHARED = 4 };

/* With the turn. */
static uint64_t number_of_set(uint64_t sum, uint32_t locks) {
    enum { KNOWN = 4 * SETS };         /* a set's sum with its number in the place of the last bits */
    static uint64_t known[KNOWN], count;
    uint32_t at = sum >> SET_BITS;
    while (known[at % KNOWN] && (known[at % KNOWN] ^ sum) >> SET_BITS) at++;
    uint64_t *set = &known[at % KNOWN];
    if (!*set && count == SETS) return SETS + least(locks, SHARED);
    if (!*set) *set = sum >> SET_BITS << SET_BITS | ++count;
    return *set % (1 << SET_BITS);
}

void set_locks(thread *t, uint64_t sum) {
    t->sum_of_locks = sum;
    t->set = sum ? number_of_set(sum, t->locks) << SET_AT : 0;
    t->kind = t->in->kind | t->set;
}

/* The function in the frame is called as `new` says, in those of `outer`. Where there is no room for a
   context the frame has its own, a new one at each call. */
void enter_context(frame *f, context *outer, context new) {
    f->own = (context){outer, new.caller, new.function, new.way, new.extent, NO_KIND, NOT_RECORDED,
                       outer->depth + 1, 0, 0, 0};
    uint32_t k = is_kept_context(outer) ? find_context(&f->own) : 0;
    if (!k) f->own.kind = kind_of(&f->own);
    if (!k && is_kept_context(outer)) k = add_context(&f->own);
    if (k && outer->inner) kept[outer->inner].after = k;
    if (k) outer->inner = k;
    f->in = k ? &kept[k] : &f->own;
}

void forget_contexts(void) {
    uint32_t count = kept_count < MOST_KEPT ? kept_count : MOST_KEPT;
    for (uint32_t k = 1; k < count; k++) kept[k].number = NOT_RECORDED;
}

void forget_told(thread *t) {
    for (uint32_t d = 0; d < recordable_depth(t); d++) t->frames[d].own.number = NOT_RECORDED;
    t->told = kept;
}

void unlock_contexts(void) { munlock(kept, sizeof kept); }

/* ---- where functions lie on the stack ---- */
/* By the return address, which stands once near the stack pointer of the function further out. In the same
   page: what is below may be no memory, where the two have stacks of their own. 0 where it isn't known. */
uint64_t place_of_frame(const thread *t, uint32_t depth) {
    enum { NEAR = 512, NEAR_END = 1 << 14, PAGE = 4096 };
    const frame *f = &t->frames[depth];
    uint64_t outer = f->stack + f->in->extent, top = (uint64_t)t->stack + t->stack_size, found = 0;
    if (f->in->extent >> PLACE_BITS || f->stack < (uint64_t)t->stack || f->stack >= outer || outer > top)
        return 0;
    uint64_t low = depth ? outer - NEAR : outer - NEAR_END, page = (outer - 1) & ~(PAGE - 1ull);
    if (depth && low < page) low = page;
    if (low < f->stack) low = f->stack;
    for (uint64_t at = outer - sizeof at; at >= low; at -= sizeof at)
        if (*(uint64_t *)at == f->in->caller) {
            if (found) return 0;
            found = at + sizeof at;
        }
    return found ? (outer - found) | (found - f->stack) << PLACE_BITS : 0;
}

/* ---- entering and leaving functions ---- */
static RARE void enter_elsewhere(thread *t, uint32_t depth, uint64_t caller,
                                                      uint64_t function, uint64_t extent) {
    context new = {.caller = caller, .function = function, .way = way_to(t, depth, caller), .extent = extent};
    enter_context(&t->frames[depth], context_at(t, depth), new);
}

static int is_entered(const context *c, uint64_t caller, uint64_t function, uint64_t extent) {
    return c->caller == caller && c->function == function && !c->way
        && (c->extent == extent || c->extent == MOVES);
}

/* A function whose stack pointer isn't further out than this one's was left without its hook: an exception
   came through code that was compiled without them, or a child made by vfork was in it. */
PUBLIC void __tsan_func_entry(void *caller) {
    thread *t = self;
    if (!t) return note_stranger();
    end_copy(t);
    if (!records_calls) return;
    uint32_t depth = t->depth;
    if (depth < MOST_FRAMES) {
        uint64_t stack = (uint64_t)__builtin_dwarf_cfa();
        while (depth && t->frames[depth - 1].stack <= stack) depth--;
        frame *f = &t->frames[depth];
        uint64_t extent = (depth ? f[-1].stack : (uint64_t)t->stack + t->stack_size) - stack;
        context *outer = depth ? f[-1].in : kept;
        uint32_t k = outer->inner;
        if (!is_entered(&kept[k], (uint64_t)caller, CALLER, extent)) k = kept[k].after;
        if (is_entered(&kept[k], (uint64_t)caller, CALLER, extent)) {
            outer->inner = k;
            f->in = &kept[k];
        } else enter_elsewhere(t, depth, (uint64_t)caller, CALLER, extent);
        f->stack = stack;
    }
    set_depth(t, depth + 1);
}

PUBLIC void __tsan_func_exit(void) {
    thread *t = self;
    if (!t) return;
    end_copy(t);
    if (t->depth) set_depth(t, t->depth - 1);
}

/* A handler of a signal, which may come in the middle of a hook: the frame that the hook may be about to fill
   is kept. The handler may have a stack of its own. */
interrupted push_frame(thread *t, uint64_t caller, uint64_t function) {
    frame *f = &t->frames[t->depth];
    interrupted before = {t->depth < MOST_FRAMES ? *f : (frame){0}, t->depth};
    if (!records_calls) return before;
    if (t->depth < MOST_FRAMES) {
        enter_elsewhere(t, t->depth, caller, function, MOVES);
        f->stack = ~0ull;
    }
    set_depth(t, t->depth + 1);
    return before;
}

void pop_frame(thread *t, const interrupted *before) {
    set_depth(t, before->depth);
    if (t->depth < MOST_FRAMES) t->frames[t->depth] = before->innermost;
}

/* ---- longjmp leaves functions without their hooks ---- */
/* The stack pointer that was saved, as the C library hides it. */
static uint64_t saved_stack(jmp_buf buffer) {
    enum { STACK_POINTER = 6 };
    uint64_t value = buffer[0].__jmpbuf[STACK_POINTER], key;
    __asm__("mov %%fs:0x30, %0" : "=r"(key));
    return (value >> 17 | value << 47) ^ key;
}

/* To a frame of the thread's own stack: those of other stacks (of a handler) are left too. */
static void leave_functions(jmp_buf buffer) {
    thread *t = self;
    uint64_t to = saved_stack(buffer);
    if (!t || to - (uint64_t)t->stack >= t->stack_size || t->frames != t->own_frames) return;
    uint32_t depth = t->depth;
    while (depth && (depth > MOST_FRAMES || t->frames[depth - 1].stack < to
                     || t->frames[depth - 1].stack - (uint64_t)t->stack >= t->stack_size)) depth--;
    set_depth(t, depth);
    /* an atomic operation that faulted is made in its hook */
    if (t->inside) t->limit ? end_quick_atomic(0) : leave(t);
}

#define LEAVES_FUNCTIONS(name) \
    PUBLIC void name(jmp_buf buffer, int value) { \
        leave_functions(buffer); \
        REAL(name)(buffer, value); \
        __builtin_unreachable(); \
    }
extern void __longjmp_chk(jmp_buf, int) __attribute__((noreturn));
LEAVES_FUNCTIONS(longjmp)
LEAVES_FUNCTIONS(_longjmp)
LEAVES_FUNCTIONS(siglongjmp)
LEAVES_FUNCTIONS(__longjmp_chk)
