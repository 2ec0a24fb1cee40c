/* Call stacks: of each event of the trace, of each thread's creation and of the allocation of each block
   that is named.

   A stack is a node of a tree: the innermost call with its stack further out.  The file begins with
   STACKS_BEGIN and the number of events, then has a node's number of 4 bytes for each event (0: not known),
   then lines:
       frame FUNCTION TAB LOCATION
           numbered from 1; the function or the location may be empty. The function __tsan_create_fiber made
           the fiber that those further in are of, and "signal handler" interrupted what is further out
       system-frame FUNCTION TAB LOCATION
           the same, numbered on, of code in /usr or /lib
       stack NODE OUTER FRAME FRAME..
           the frames of a node's innermost call, the innermost first (of inlined code there are several),
           and the node of the stack further out, or 0
       thread NAME TAB NODE                             where the thread was created
       block NUMBER NODE                                where the block was allocated
       free FIRST LAST                                  these events are of one call that freed a block
       again NUMBER TAB EVENT TAB THREAD TAB LOCATION
           before this event the thread allocated a block, which has a variable in a race, where one had been
           that was freed at the location
       local EVENT TAB VARIABLE TAB NAME
           from this event on the variable, which is on a stack, is this local of a function that the stack's
           thread is in, as "x.head of main"; or of none that is known, where the name is empty. With 0 for
           EVENT: the variable, which is in a block of the heap, is at all events this member of the block's
           type, as "Account.balance"; with " of FILE:LINE#NUMBER", the block's name, where several blocks of
           the trace have this type, or a static variable has its name; or the program's part of a static's
       type VARIABLE TAB other
           the variable is no integer, bool, enum or pointer, by the debug information
       use EVENT TAB NAME TAB THREAD TAB LOCATION TAB KIND ORDER
           a use before this event of an atomic that several threads use, whether or not it is an event: a
           load, store, exchange (that changed the value) or other update with the order relaxed, acquire,
           release or both. In the order in which they happened each that writes, and each thread's first load
           of what another thread stored. A store after a release fence is one with release. Of a fence with
           acquire the kind is fence, and NAME is empty. Of a page's trace only those within its spans. Behind
           ORDER " again": it stands for earlier ones of its kind too, which are omitted
       source NAME TAB PATH
           a source file, as locations name it, and where it was when it was compiled
       line LOCATION TAB SUM
           of the text that a frame's line has now, without the blanks at its ends: 16 hexadecimal digits. Not
           where the file can't be read */
#include "converter.h"

#define STACKS_BEGIN "shb-stacks 1 %020lu\n"
enum { MOST_FRAMES_OF_A_CALL = 64, MOST_LEFT = 256, MOST_USES = 1 << 20 };

/* function: what was called, by a place in it; of an event 0. A way has a node of its own. */
typedef struct { u64 caller, function; u32 outer; uint8_t used, is_way; } node;

/* A record OP_FRAME, with its number as the index; 0 has no function. */
typedef struct { call call; u64 record, own_function; u32 outer, depth; uint8_t is_sought; } context;

int with_stacks;
static int has_calls;
static FILE *file;
static const char *path;
static u64 told_way, has_way;          /* of which record; the passes pass over some */
static VECTOR(context) contexts;
static INTERNED(node) nodes;
static FILE *lines;                    /* of atomics, locals and frees, in memory */
static char *lines_text;
static size_t lines_bytes;
static u64 told_place;
static int has_place;

void open_stacks(const char *path_) {
    path = path_;
    file = fopen(path, "w");
    if (!file || fprintf(file, STACKS_BEGIN, 0ul) < 0) cannot_write(path);
    lines = open_memstream(&lines_text, &lines_bytes);
    if (!lines) die("out of memory");
}

/* ---- the stack of each thread, as the record tells it ---- */
/* As a record OP_PLACE has it. A function that seems to take more or less room than at the first call from
   there doesn't: then its return address was left by another call. */
static u64 place_at(u64 caller, u64 function) {
    static INTERNED(u64) sizes;        /* plus one */
    if (!has_place) return 0;
    u64 *size = ENTRY(sizes, caller, function), told = (told_place >> PLACE_BITS) + 1;
    if (!*size) *size = told;
    return *size == told ? told_place : 0;
}

/* A piece or an object on a stack: its name now, and how many records the stack's thread had at the last
   access by another one. */
typedef struct { u64 at; u32 block; const char *name; u64 records; } named;
static INTERNED(named) named_places;

/* It has this name from the event on. */
static void write_local(u64 event, named *n, const char *name) {
    n->name = name;
    part variable = variable_name(n->at, n->block);
    fprintf(lines, "local %lu\t%.*s\t", event, TEXT(variable));
    write_own_name(lines, name);
    fputc('\n', lines);
}

/* The thread has left functions since its last record, nobody knows when: what others accessed in them
   meanwhile has no name. */
static void leave_functions(thread_calls *s) {
    EACH(f, s->foreign)
        if (f->depth >= s->depth || f->depth >= s->lowest)
            write_local(f->event, &named_places.at[f->number - 1], "");
    s->foreign.count = 0;
    s->lowest = -1;
    s->records++;
}

/* Of few functions a step is like that of any record. */
static void count_functions(u64 count) {
    enum { FEW = 256 };
    if (count > FEW) extra_steps += count - FEW;
}

/* The functions of a context but for its innermost ones: at most so many are left. */
static u32 outer_context(u32 number, u64 depth) {
    u64 before = contexts.at[number].depth;
    if (before > depth) count_functions(before - depth);
    while (contexts.at[number].depth > depth) number = contexts.at[number].outer;
    return number;
}

/* In the first pass. */
static void note_frame(const entry *e) {
    u32 *told = &threads[e->thread].calls.told, outer;
    if (!contexts.count) *PUSH(contexts) = (context){.record = e->number};       /* that without a function */
    outer = outer_context(*told, size_of(e));
    *told = contexts.count;
    context added = {.record = e->number, .call = {.caller = e->caller, .function = e->address},
                     .outer = outer, .depth = contexts.at[outer].depth + 1};
    *PUSH(contexts) = added;
}

static u32 context_of_frame(const entry *e) {
    return 1 + COUNT_BEFORE(k, contexts.count - 2, contexts.at[k + 1].record < e->number);
}

/* That a record tells. */
static u32 context_of(const entry *e) {
    if (e->operation == OP_FRAME) return context_of_frame(e);
    u64 number = e->is_late ? late_context(e) : e->address;
    return number < contexts.count ? number : 0;
}

/* The outermost of its functions that is the program's own. */
u64 own_function(const entry *e) {
    char name[NAME_BYTES];
    u32 number = context_of(e);
    u64 found = 0;
    for (u32 k = number; k; k = contexts.at[k].outer) {
        const context *c = &contexts.at[k];
        if (c->is_sought && c->own_function) found = c->own_function;
        if (c->is_sought) break;
        if (own_function_name(c->call.function, name, sizeof name)) found = c->call.function;
    }
    if (number) contexts.at[number].own_function = found;
    if (number) contexts.at[number].is_sought = 1;
    return found;
}

static void meet_frame(thread_calls *s, const entry *e) {
    call *c = &contexts.at[s->told = context_of_frame(e)].call;
    c->way = s->way;
    c->place = place_at(c->caller, c->function);
}

/* The thread is in the functions of a context. */
static void enter(thread_calls *s, u32 number) {
    u32 before = s->length;
    if (s->in == number) return;
    s->in = number;
    s->length = contexts.at[number].depth;
    while (s->calls.count < s->length) *PUSH(s->calls) = (call){0};
    u32 d = s->length;
    for (; d && (d > before || s->calls.at[d - 1].context != number); number = contexts.at[number].outer) {
        s->calls.at[--d] = contexts.at[number].call;
        s->calls.at[d].context = number;
    }
    count_functions(s->length - d);
    if (s->lowest > d) s->lowest = d;
    if (s->known > d) s->known = d;
    if (s->owned > d) s->owned = d;
}

void note_call(const entry *e) {
    if (e->operation == OP_CONTEXT) threads[e->thread].calls.told = context_of(e);
    if (e->operation == OP_CONTEXT || e->operation == OP_PLACE) return;
    /* A library of the system that calls an outermost function isn't shown. */
    int is_shown = e->operation != OP_FRAME || size_of(e) || !is_of_system(e->caller);
    if (is_shown) note_caller(e->caller);
    if (e->operation != OP_FRAME) return;
    has_calls = 1;
    note_frame(e);
    note_hooked(e->address);
    note_caller(e->address);
    note_call_site(e->caller, e->address);
}

/* A record of calls. */
static void meet_told(thread_calls *s, const entry *e) {
    if (e->operation == OP_WAY) {
        told_way = e->caller;
        has_way = e->number + 1;
    }
    if (e->operation == OP_PLACE) told_place = e->address;
    if (e->operation == OP_FRAME) meet_frame(s, e);
    if (e->operation == OP_CONTEXT) s->told = context_of(e);
    if (e->operation != OP_WAY) has_place = e->operation == OP_PLACE;
}

/* What a thread is in by its last record. Without a file of stacks few records are asked for it. */
static thread_calls *calls_of(u32 t) {
    thread_calls *s = &threads[t].calls;
    enter(s, s->now);
    u64 inside = s->length ? depth_inside(s->its) : 0;
    s->depth = inside < s->length ? inside : s->length;
    return s;
}

void meet_call(const entry *e) {
    u32 t = e->thread;
    thread_calls *s = &threads[t].calls;
    int is_of_calls = e->operation >= OP_FRAME && e->operation <= OP_CONTEXT;
    if (e->operation == OP_NAME) return;
    s->way = has_way == e->number && !e->is_late ? told_way : 0;
    if (is_of_calls) meet_told(s, e);
    else has_place = 0;
    if (e->operation == OP_START) s->end = e->address + size_of(e);
    s->now = e->is_late ? context_of(e) : s->told;
    s->caller = is_of_calls ? 0 : e->caller;
    s->its = e->its;
    if (!with_stacks) return;
    enter(s, s->told);
    calls_of(t);
    if (e->operation < OP_FRAME || e->operation == OP_CONTEXT) leave_functions(s);
}

/* A way is one only if it lies in the function that was entered last. */
static u64 own_of(u64 caller, u64 way, const call *outer) {
    if (is_own_place(caller)) return caller;
    if (way && outer && is_own_place(way) && in_one_function(way, outer->function)) return way;
    return outer ? outer->own : 0;
}

static RARE u64 own_outer_place(u32 t, u64 caller) {
    thread_calls *s = calls_of(t);
    for (; s->owned < s->depth; s->owned++) {
        call *c = &s->calls.at[s->owned];
        c->own = own_of(c->caller, c->way, s->owned ? c - 1 : 0);
    }
    u64 own = own_of(caller, s->way, s->depth ? &s->calls.at[s->depth - 1] : 0);
    return own ? own : caller;
}

inline u64 own_place(u32 t, u64 caller) { return is_own_place(caller) ? caller : own_outer_place(t, caller); }

static node *node_at(u32 number) { return &nodes.at[number - 1]; }

static u32 node_of(u32 outer, u64 caller, u64 function) {
    u32 number = INTERN(nodes, caller | (u64)outer << 48, function | (u64)(outer >> 16) << 48);
    node *n = node_at(number);
    if (!n->caller) *n = (node){caller, function, outer, n->used, n->is_way};
    return number;
}

static u32 node_by_way(u32 outer, u64 caller, u64 function, u64 way) {
    if (way) {
        outer = node_of(outer, way, caller);
        node_at(outer)->is_way = 1;
    }
    return node_of(outer, caller, function);
}

/* The stack of what a thread does now, at a place in its innermost function. */
static u32 node_now(u32 t, u64 caller) {
    thread_calls *s = calls_of(t);
    for (; s->known < s->depth; s->known++) {
        call *c = &s->calls.at[s->known];
        c->node = node_by_way(s->known ? c[-1].node : 0, c->caller, c->function, c->way);
    }
    u32 outer = s->depth ? s->calls.at[s->depth - 1].node : 0;
    if (!s->last || s->last_outer != outer || s->last_caller != caller || s->last_way != s->way) {
        s->last = node_by_way(outer, caller, 0, s->way);
        s->last_outer = outer;
        s->last_caller = caller;
        s->last_way = s->way;
    }
    return s->last;
}

inline u32 stack_at(u32 t, u64 caller) { return with_stacks ? node_now(t, caller) : 0; }

void begin_calls(int has_stacks) {
    has_place = 0;
    with_stacks = file && has_stacks;
}

/* ---- locals ---- */
/* By where a thread is in a function, which is the caller or the way; "" where none is known. Each is looked
   for once. */
static const char *name_of_local(u64 function, const call *in, u64 from_top, u64 from_stack, u64 length) {
    static map places, ways;
    static INTERNED(const char *) names;
    char text[NAME_BYTES];
    u64 place = map_number(&ways, map_number(&places, function, in->caller), in->way), pc = 0;
    const char **name = ENTRY(names, place << 32 | from_top, length << 32 | from_stack);
    if (*name) return *name;
    if (in_one_function(in->caller, function)) pc = in->caller;
    else if (in->way && in_one_function(in->way, function)) pc = in->way;
    int is_known = pc && local_name(function, pc, from_top, from_stack, length, text, sizeof text);
    return *name = is_known ? copied(text) : "";
}

/* By the functions that the thread is in by its last record. Where nothing was told since it came back to a
   function it is behind the call that it came from. */
static const char *local_at(const thread_calls *s, u64 address, u64 length, u32 *depth) {
    u64 outer = s->end;
    for (u64 d = 0; d < s->depth; d++) {
        *depth = d;
        const call *c = &s->calls.at[d];
        u64 top = outer - (c->place & ((1 << PLACE_BITS) - 1)), stack = top - (c->place >> PLACE_BITS);
        if (!c->place || address >= top) return "";
        call told = d + 1 < s->calls.count ? c[1] : (call){0};
        if (d + 1 == s->depth && s->caller) told = (call){.caller = s->caller, .way = s->way};
        if (address >= stack)
            return name_of_local(c->function, &told, top - address, address - stack, length);
        outer = stack;
    }
    return "";
}

u64 allocated_by(u32 block_number) {
    const block *b = block_of(block_number);
    return b && b->node ? node_at(b->node)->caller : 0;
}

const char *local_now(u64 at, const block *b) {
    u32 depth;
    if (!b || !b->stack) return "";
    return local_at(&threads[b->thread].calls, at, next_cut(at, at + MOST_LENGTH) - at, &depth);
}

/* Of what isn't the program's own in a variable; and of its type. */
static void note_own_name(u64 at) {
    static map met;
    if (!map_adds(&met, at, 0)) return;
    part name = variable_name(at, 0);
    int length = own_length(name.at);
    if (name.at[length]) fprintf(lines, "local 0\t%.*s\t%.*s\n", TEXT(name), length, name.at);
    if (is_of_other_type(at)) fprintf(lines, "type %.*s\tother\n", TEXT(name));
}

void note_name(u64 at, u32 block_number, u64 event, u32 t) {
    const block *b = block_of(block_number);
    if (with_stacks && !b) note_own_name(at);
    if (!with_stacks || !b) return;
    if (!b->stack) {
        note_in_block(at, block_number);
        return;
    }
    thread_calls *s = &threads[b->thread].calls;
    u32 depth = 0, number = INTERN(named_places, at, block_number);
    named *n = &named_places.at[number - 1];
    if (!n->name) *n = (named){at, block_number, "", 0};
    const char *name = local_at(s, at, next_cut(at, at + MOST_LENGTH) - at, &depth);
    if (strcmp(n->name, name)) write_local(event, n, name);
    if (!*name || t == b->thread || n->records == s->records) return;
    n->records = s->records;
    *PUSH(s->foreign) = (foreign){event, number, depth};
}

/* ---- what is of use to a reader ---- */
void keep_stack(u32 number) {
    for (; number && !node_at(number)->used; number = node_at(number)->outer) node_at(number)->used = 1;
}

void stack_of_event(u32 number) {
    if (!with_stacks) return;
    if (fwrite_unlocked(&number, sizeof number, 1, file) != 1) cannot_write(path);
    keep_stack(number);
}

static int notes_uses(void) {
    static u64 noted;
    return span_last && noted < MOST_USES && ++noted;
}

/* Loads with acquire are counted apart from others. */
static int is_first_load(u64 store, u32 t, int acquires) {
    static map loaded;
    return map_adds(&loaded, store, (u64)t << 1 | acquires);
}

void note_use(const entry *e, u64 object, int gives) {
    static const char *const orders[] = {"relaxed", "acquire", "release", "both"};
    static u64 stores;
    static INTERNED(u64) last_stores;  /* of objects, each with its thread; 0 before one */
    if (!with_stacks) return;
    u32 t = e->thread;
    u64 *last = ENTRY(last_stores, object, 0);
    int is_load = e->operation == OP_ATOMIC_LOAD, is_store = e->operation == OP_ATOMIC_STORE;
    if (is_load && (!*last || (*last & 0xffff) == t || !is_first_load(*last, t, acquires(e)))) return;
    if (!is_load) *last = ++stores << 16 | t;
    if (!notes_uses()) return;
    const block *b = block_at(e->address);
    note_name(e->address, block_number(b), written + 1, t);
    part name = variable_name(e->address, block_number(b)), place = place_of(own_place(t, e->caller));
    fprintf(lines, "use %lu\t%.*s\t%s\t%.*s\t%s %s%s\n", written + 1, TEXT(name),
            thread_name(t), TEXT(place),
            is_load ? "load" : is_store ? "store" : is_exchange(e) ? "exchange" : "update",
            orders[acquires(e) + 2 * (!is_load && gives)],
            is_repeated(e) ? " again" : "");
}

void note_fence(const entry *e) {
    if (!with_stacks || !notes_uses()) return;
    part place = place_of(own_place(e->thread, e->caller));
    fprintf(lines, "use %lu\t\t%s\t%.*s\tfence acquire\n", written + 1, thread_name(e->thread),
            TEXT(place));
}

void note_free(u64 first, u64 last) {
    if (with_stacks && first <= last) fprintf(lines, "free %lu %lu\n", first, last);
}

void note_again(u32 t, const block *b, const block *earlier) {
    if (!with_stacks || !earlier->freed || !is_own_place(earlier->freed_from)) return;
    part place = place_of(earlier->freed_from);
    fprintf(lines, "again %u\t%lu\t%s\t%.*s\n", block_number(b), written + 1, thread_name(t),
            TEXT(place));
}

/* ---- the tables ---- */
static u32 frame_number(inlined_frame *f) {
    static u32 frame_count;
    if (f->number) return f->number;
    fprintf(file, "%s %s\t%s\n", f->in_system_file ? "system-frame" : "frame", f->function, f->location);
    if (!f->in_system_file && f->line) write_line_sum(file, f->location, f->path, f->line);
    return f->number = ++frame_count;
}

static inlined_frame *entered(u32 number) { return outermost(frames_of(node_at(number)->function)); }

/* The node of the function that a node's call lies in: the next further out, where all hooks told. Functions
   that were left without their hooks, MOST_LEFT at most, are passed over, where the one that the call lies in
   stands further out. Else code without hooks lies in between, and the function that was entered last called
   it. */
static u32 called_in(u32 k) {
    u64 caller = node_at(k)->caller;
    u32 o = node_at(k)->outer;
    if (node_at(k)->is_way) return o && in_one_function(caller, node_at(o)->function) ? o : 0;
    if (o && node_at(o)->is_way && node_at(o)->function == caller) return o;
    for (int left = 0; o && left <= MOST_LEFT; o = node_at(o)->outer, left++)
        if (in_one_function(caller, node_at(o)->function)) return o;
    return 0;
}

/* Not shown: the recorder's own, a way that isn't called in the function further out, and others' callers of
   the outermost function. */
static int is_outermost(const node *n) { return !n->outer && n->function; }
static int is_shown(const node *n, const inlined_frame *f) {
    return !is_outermost(n) || (!f->in_system && f->line);
}

/* Null where none would be shown: they aren't asked for then. */
static inlined_frame *frames_to_show(const node *n, u32 outer) {
    if (is_of_recorder(n->caller) || (n->is_way && !outer) || (is_outermost(n) && is_of_system(n->caller)))
        return 0;
    return frames_of(n->caller);
}

/* The frames of a node's innermost call, and the node of the stack further out. Where code without hooks lies
   in between the last frame is the function that called it. */
typedef struct { inlined_frame *at[MOST_FRAMES_OF_A_CALL], between; int count; u32 outer; } shown_call;

/* Does the recorder call a handler of a signal there? */
static int calls_handler(u64 caller) {
    char name[20];
    return is_of_recorder(caller) && !strcmp(function_name(caller - 1, name, sizeof name), "call_in_frame");
}

static void find_call(u32 k, shown_call *call) {
    u32 outer = called_in(k);
    const node *n = node_at(k);
    call->count = 0;
    for (inlined_frame *f = frames_to_show(n, outer); f
         && call->count < MOST_FRAMES_OF_A_CALL - 1; f = f->outer)
        if (is_shown(n, f)) call->at[call->count++] = f;
    inlined_frame *last = !outer && n->outer ? entered(n->outer) : 0;
    if (last && *last->function) {     /* of the recorder's own only __tsan_create_fiber was entered */
        call->between = (inlined_frame){.function = last->function, .location = "",
                                        .in_system_file = last->in_system_file};
        call->at[call->count++] = &call->between;
    }
    if (calls_handler(n->caller)) {
        call->between = (inlined_frame){.function = "signal handler", .location = ""};
        call->at[0] = &call->between;
        call->count = 1;
    }
    call->outer = outer ? outer : n->outer;
}

static void write_stack(u32 k) {
    shown_call call;
    u32 numbers[MOST_FRAMES_OF_A_CALL];
    find_call(k, &call);
    for (int i = 0; i < call.count; i++) numbers[i] = frame_number(call.at[i]);
    fprintf(file, "stack %u %u", k, call.outer);
    for (int i = 0; i < call.count; i++) fprintf(file, " %u", numbers[i]);
    fputc('\n', file);
}

/* ---- the end by a signal ---- */
enum { MOST_SAID = 20 };               /* frames */
static struct { u64 address, caller; u32 thread, node; int signal; uint8_t is_met, has_address; } crash;

void note_crash(const entry *e) {
    crash.signal = size_of(e) % HAS_ADDRESS;
    crash.has_address = size_of(e) / HAS_ADDRESS;
    crash.address = e->address;
    crash.caller = own_place(e->thread, e->caller);
    crash.thread = e->thread;
    crash.is_met = 1;
    crash.node = file ? node_now(crash.thread, e->caller) : 0;
}

/* On standard error: of the calls that have a line or a name. */
void say_crash(void) {
    if (!crash.is_met) return;
    const char *word = sigabbrev_np(crash.signal);
    fprintf(stderr, "shb-std: the program crashed: SIG%s", word ? word : "?");
    if (crash.has_address) fprintf(stderr, " at address 0x%lx", crash.address);
    fprintf(stderr, " in thread %s", thread_name(crash.thread));
    if (!crash.node) fprintf(stderr, ": %.*s", TEXT(place_of(crash.caller)));
    int said = 0;
    shown_call call;
    for (u32 k = crash.node; k && said < MOST_SAID; k = call.outer) {
        find_call(k, &call);
        for (int i = 0; i < call.count && said < MOST_SAID; i++) {
            const char *function = call.at[i]->function, *location = call.at[i]->location;
            fprintf(stderr, "%s%s%s%s", said++ ? ", from " : ": ", function,
                    *function && *location ? " " : "", location);
        }
    }
    fputc('\n', stderr);
}

void end_stacks(void) {
    if (!with_stacks) return;
    EACH_THREAD(t) keep_stack(threads[t].created_at);
    for (u32 b = 1; b <= block_count(); b++)
        if (block_of(b)->named) keep_stack(block_of(b)->node);
    for (u64 k = 1; k <= nodes.numbers.count; k++)
        if (node_at(k)->used) write_stack(k);
    EACH_THREAD(t)
        if (threads[t].created_at) fprintf(file, "thread %s\t%u\n", thread_name(t), threads[t].created_at);
    for (u32 b = 1; b <= block_count(); b++)
        if (block_of(b)->named && block_of(b)->node) fprintf(file, "block %u %u\n", b, block_of(b)->node);
    write_names_in_blocks(lines);
    if (fclose(lines)) die("out of memory");
    fwrite(lines_text, 1, lines_bytes, file);
    write_sources(file);
    if (!has_calls && written)
        fprintf(stderr, "shb-std: no call stacks are known: the program was recorded with SHB_STACKS=0, or "
                                               "compiled without hooks of functions\n");
    rewind(file);
    fprintf(file, STACKS_BEGIN, written);
    end_file(file, path);
}
