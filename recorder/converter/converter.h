/* What the parts of the converter share. */
#pragma once
#include "tables.h"
#include "threads.h"

/* What shb takes of a trace, as python/shb_common/limits.py has it. */
enum { SHB_EVENTS = 4194304, SHB_THREADS = 1024, SHB_LINE = 4096, SHB_BYTES = 1 << 30 };
/* the last: why it is cut before a thread more */
typedef struct { u64 events, bytes; u32 threads; const char *before_thread; } limits;
#define LIMITS_OF_SHB \
    ((limits){SHB_EVENTS, SHB_BYTES, SHB_THREADS, "before a thread too many: shb takes 1,024"})
#define LIMITS_OF_LIST \
    ((limits){4294967294, -1, 65535, "before a thread too many: shb places --list takes 65,535"})
typedef struct { const char *at; u64 length; } part;         /* of a text, without an end of its own */
#define TEXT(part) (int)(part).length, (part).at             /* for "%.*s" */

/* The last line of a help text, after an empty one, and what --version says: what is installed. The
   installation defines it. */
#ifdef SHB_VERSION
#define VERSION_LINE "\nshb " SHB_VERSION "\n"
#define VERSION SHB_VERSION
#else
#define VERSION_LINE ""
#define VERSION "of a checkout"
#endif

/* records.c: the record. */
/* A record as a pass meets it. */
typedef struct {
    const record *its;          /* in the file: an entry or two */
    u64 number;                        /* in the order of the passes */
    u64 address, caller;
    u32 thread;
    enum operation operation;
    int is_late;
} entry;
extern u64 entry_count;                /* of the file */
extern u64 record_count;               /* the passes may make it less */
extern const char *recording_cut;      /* why the record is not that of the whole run; or null */
void open_record(const char *path);    /* dies where it is damaged, or a copy that was cut or changed */
void is_damaged(const char *how) __attribute__((noreturn));
/* of the record's segment before: the file's records come before all others */
void carry_blocks(const char *path);
u32 threads_met(void);                 /* after the first pass */
/* each pass calls it for the first record, and for that which it returned, before it asks for them */
u64 next_records(u64 i);
entry entry_at(u64 i);
u64 size_of(const entry *e);
/* of an access that is late: in which context it was made; does it stand for earlier ones? */
static inline u64 late_context(const entry *e) { return e->its[-1].what % IS_REPEATED; }
static inline int is_repeated(const entry *e) { return e->is_late && e->its[-1].where & IS_REPEATED; }
void forget_before(u64 i);           /* the entries of the file */
u64 depth_inside(const record *r);          /* MOST_FRAMES where it is told by records before */
void begin_thread_pass(void);
/* each pass calls these for each fork and begin; 0 where there are too many threads */
int meet_fork(const entry *e);
void meet_start(const entry *e);
u32 thread_bound(void);                /* all threads are below it */
u32 next_thread(u32 t);                /* the one after it, of those that there may be */
#define EACH_THREAD(t) for (u32 t = 0; t < thread_bound(); t = next_thread(t))
u32 other_thread_of(const entry *e);   /* of a fork or join */
int acquires(const entry *e), releases(const entry *e);      /* of an atomic access or a fence */
int is_exchange(const entry *e);
u64 accessed_bytes(const entry *e);

/* late.c: the entries of a record with each access in its place that is late. */
static inline enum operation operation_in(record r) { return r.what >> 48 & 63; }
static inline int is_late(record r) { return operation_in(r) == OP_LATE; }
static inline int is_of_two(record r) { return is_late(r) || r.what >> 54 == SIZE_FOLLOWS; }
int is_good_late(u64 position, record access, u64 i); /* of an entry OP_LATE, and the one after it */
/* of each entry OP_LATE, before the order is asked for */
void note_late(u64 i, u64 position, u64 most_entries);
/* Writes the numbers of all entries but these in the order of what happened, with IS_LATE those of accesses
   that are late, and returns how many they are. */
#define IS_LATE (1u << 31)
u64 put_in_order(const record *entries, u64 count, u32 *order);

/* sources.c: the source files of modules, and how they are named. */
void strip_folder(const char *folder); /* names of files below it are paths from it */
void note_source(const char *path);
/* a line "source NAME TAB PATH" for each file of the program's own, before any is added */
void write_sources(FILE *file);
/* a line "line LOCATION TAB SUM" of the text there, if it can be read */
void write_line_sum(FILE *file, const char *location, const char *path, u64 line);
const char *source_name(const char *path);                   /* of one that was noted; it stands for good */
int in_system(const char *path);       /* is it the system's or the compiler's? */
int in_rust_library(const char *path);

/* names.c: modules, symbols, lines of code. */
enum { PLACE_BYTES = 1000 };           /* shb takes lines of 4,096 bytes */
void read_modules(char *header);
void note_caller(u64 caller);
void note_caller_of(const entry *e);   /* with what is done there */
void note_call_site(u64 caller, u64 function);
void find_places(void);                /* of all callers that were noted */
part place_of(u64 caller);
part line_end_of(u64 caller);          /* ")|" and its place, with WIDE bytes that may be read */
u32 site_of(u64 caller);               /* the number of its location */
void note_hooked(u64 function);        /* in the first pass: it has hooks */
/* is it in a function of Rust's library without hooks, whose order nobody sees? */
int is_unseen(u64 caller);
int is_own_place(u64 caller);          /* not in a header or a library of the system */
int is_of_system(u64 caller);          /* is it in a module of the system's, other than the recorder? */
int is_of_recorder(u64 caller);
/* The frames of a place in the code, the innermost first; of inlined code there are several. */
typedef struct inlined_frame {
    struct inlined_frame *outer;
    const char *function, *location, *path;                  /* path: null where there is no line */
    u32 number;                        /* in the file of stacks, or 0 */
    u32 line;                          /* or 0 */
    uint8_t in_rust_library;
    uint8_t in_system_file;            /* as a header of the C++ library is */
    uint8_t in_system;                 /* the module is the system's */
} inlined_frame;
inlined_frame *frames_of(u64 caller);  /* null where it wasn't noted */
inlined_frame *outermost(inlined_frame *f);
int in_one_function(u64 caller, u64 other);
const char *function_name(u64 address, char *buffer, size_t size);       /* "" where it is not known */
int is_of_rust(const char *name);      /* of a function of its library, or mangled by its compiler */
/* The name if it isn't of the system's libraries, nor of the C++ library's headers unless for a lambda of the
   program; else 0. */
int own_function_name(u64 address, char *buffer, size_t size);
void symbol_name(u64 address, char *buffer, size_t size);
/* By the debug information: no integer, bool, enum or pointer. */
int is_of_other_type(u64 address);
/* without members of the C++ library's classes: of "box.mail._M_finish" that of "box.mail" */
int own_length(const char *name);
void write_own_name(FILE *to, const char *name);         /* of a local: "box.mail of main" */
/* The local of a function at `pc` that lies so many bytes below the end of its return address, and above its
   stack pointer: "x.head of main"; 0 where none is known. */
int local_name(u64 function, u64 pc, u64 below, u64 above, u64 length, char *buffer, size_t size);

/* The same of what lies so far inside of a block of so many bytes, which the C++ library allocated by a call
   in the program's own code: "Account.balance". Returns the length of the type's name; 0 if the type isn't
   certain. is_other: as is_of_other_type tells. */
size_t name_in_block(u64 caller, u64 block_size, u64 offset, u64 length, char name[NAME_BYTES],
                     uint8_t *is_other);

/* The same by an access: the block's size, the access's offset and length, or 0 if that isn't known, whether
   it writes, and what is asked for: an offset and a length. Returns also the begin and the size of the object
   that the access tells; they stay if it tells none. */
size_t name_by_use(u64 caller, const u64 use[6], char name[NAME_BYTES], u64 *begin, u64 *size,
                   uint8_t *is_other);

int is_variable(const char *name, size_t length);            /* is a static variable named so? */

/* Threads: the only one, plus one; 0 of none; or SEVERAL. */
typedef u32 some_threads;
#define SEVERAL (-1u)
static inline void add_thread(some_threads *s, u32 t) {
    if (*s != t + 1) *s = *s ? SEVERAL : t + 1;
}

/* memory.c: blocks and pieces. */
typedef struct {
    u64 at, size, caller;
    u32 thread, node;                  /* node: of the file of stacks, where it was allocated; or 0 */
    some_threads users;
    u32 piece;                         /* of a block of one thread, if it has been asked for */
    /* the record from which on it has several users; behind that, and of other blocks, where it is freed */
    union { u64 shared_at, freed_from; };
    uint8_t stack, named, freed;
} block;
typedef struct {
    u64 at;
    u64 last_write;                    /* the record */
    u32 block;                         /* its number, or 0 */
    u32 atomic_writers;                /* a list */
    u32 writes;                        /* events so far that wrote it, in all traces */
    /* the number of the one that was met last at its address, or 0 (objects.c) */
    u32 object;
} piece;
/* Who uses a piece, reads it plainly and writes it, plainly or atomically. It stands apart, for most accesses
   ask no more, and of several neighbours.
   sum: of which threads used it in which of their regions; from the end of the third pass on the number of
   its bundle, or 0. last: the last of these uses, or APART: it is in no bundle; later how many pieces from it
   on have one bundle. uses: how many there were. */
typedef struct {
    some_threads users, readers, writers;
    u32 sum, last, uses;
    uint8_t written, written_atomically;
} piece_use;
#define APART (-1u)
enum { MOST_PIECES = (1u << 30) - 1 }; /* in accesses.c numbers of runs stand behind theirs */
/* in this pass: pages and pieces after the first of each range, functions of deep stacks, locks that are
   looked through, and what a record takes of other threads */
extern u64 extra_steps;
void begin_memory_pass(void);
/* it, or null; each pass calls it for each OP_ALLOC and OP_START: the newest block holds its addresses */
block *meet_block(const entry *e);
block *block_at(u64 address);          /* or null */
u32 number_at(u64 address);            /* of this block, or 0 */
void end_block(u64 address, u64 caller);                     /* it is freed */
void write_blocks(const char *path);   /* those that are there, for carry_blocks */
u32 block_count(void);
u32 block_number(const block *b);      /* from 1; of null 0 */
block *block_of(u32 number);
void cut(u64 first, u64 second);
u64 next_cut(u64 from, u64 end);       /* the first cut after `from`, or the end */
u64 end_of_same(u64 from, u64 end);    /* up to there memory is of one block, or of none */
/* The number, from 1, of the piece that begins at a cut; with how many pieces from there to `end` have
   numbers that follow each other, but at most those in the cut's stretch of 64 bytes, and the next cut, or
   `end`. In the third pass; makes them. */
u32 neighbours_at(u64 *cut, u64 end, u32 *count);
u32 piece_of_block(block *b);          /* all of it is one; it has no other */
u32 piece_count(void);
piece *piece_of(u32 number);
piece_use *use_of_piece(u32 number);

/* stacks.c: call stacks, in a file beside the trace. */
extern int with_stacks;                /* has the trace that is written a file of stacks? */
void open_stacks(const char *path);
void note_call(const entry *e);        /* each record of calls, in the first pass */
void meet_call(const entry *e);        /* each record of the fourth pass, before its events */
void begin_calls(int has_stacks);      /* each pass that meets them */
/* of the context that a record tells: the outermost function that is the program's own, or 0 */
u64 own_function(const entry *e);
/* of what a thread does now: the innermost place in the program's own code, or the caller */
u64 own_place(u32 t, u64 caller);
u32 stack_at(u32 t, u64 caller);
void stack_of_event(u32 number);       /* of the event that comes next */
void keep_stack(u32 number);           /* it is written, though no event has it */
void note_crash(const entry *e);       /* a record OP_CRASH */
void say_crash(void);                  /* at the end */
void note_free(u64 first, u64 last);   /* the events of one call that frees a block */
/* a thread allocated a block where this one had been */
void note_again(u32 t, const block *b, const block *earlier);
/* of a piece or an object: this event of a thread is of it */
void note_name(u64 at, u32 block, u64 event, u32 t);
/* of an atomic that several threads use: what stores, and a thread's first load of another's store */
void note_use(const entry *e, u64 object, int gives);
void note_fence(const entry *e);       /* with acquire */
void end_stacks(void);                 /* of each trace */

u64 allocated_by(u32 block_number);    /* what called for it, or 0 */

/* heap.c: what lies in blocks of the heap. */
/* an access; length 0: it isn't known */
typedef struct { u64 at, length, caller; int writes; } use_of_block;
enum { MOST_LENGTH = 4096 };           /* of what has a name: of a longer piece its end isn't looked for */
void note_in_block(u64 at, u32 block_number);                /* of what has a name */
/* the same: it may tell what lies there */
void note_use_of_block(u64 at, u32 block_number, use_of_block use);
void write_names_in_blocks(FILE *to);

/* The local that lies there on a stack now; "" where none is known, and of other memory. It stands
   for good. */
const char *local_now(u64 at, const block *b);

/* page.c: which of the run's events the trace has that is written, and the uses of variables in races. */
int read_races(const char *path);      /* up to the end; or to a line "again", where it returns 1 */
int begin_page(u64 run_events);        /* its trace is next; 0: there are no races */
void begin_spans(void);                /* of each trace */
void open_uses(const char *path);
int is_for_page(void);
int takes_piece(u32 piece);            /* has it the accesses of this piece? */
int is_block_in_race(u32 number);
void step_trace(u64 number);           /* before each event of the run, by its number */
void end_trace(const char *why);
int is_over(void);                     /* it has no more events */
extern u64 span_last;                  /* the last event of the span that the trace is in; or 0 */
void note_written(u64 number, u64 in_page);                  /* an event of the run, by both its numbers */
void note_part(u64 in_page);           /* a span begins or ends behind so many events */
part lock_name(u32 number);            /* objects.c: with WIDE bytes that may be read */
part name_of_held(u64 key);            /* the same: of a lock that a thread holds */
int is_for_reading(u64 key);           /* the same: does it hold it for reading? */
int are_sets_apart(void);              /* did the recorder tell all sets of held locks apart? */
void count_use(u32 t, u64 caller, u64 own_place, u32 piece, char word);
enum { NOBODY = -1u };
/* an event of the piece, or of what stands for a thread's atomic writes */
void note_sight(u32 t, u64 own_place, u32 piece, u32 writer, int writes);
void note_repeated(u32 t, u64 in_page);   /* a thread's event stands for others that were omitted */
void end_uses(void);                   /* of each trace */

/* accesses.c, objects.c: what the passes do with a record. */
extern int whole_trace;                /* also what cannot conflict */
extern int cuts_all;                   /* also blocks that one thread alone uses */
/* that a record accesses, from the third pass on; null of several, or none */
piece *only_piece(const entry *e);
void find_users(const entry *e);
int is_passed_over(u64 i);             /* from the second pass on: no pass needs the record */
int means_access(const entry *e);      /* does a record mean more than its context? */
void find_earlier_cuts(void);
void share_pieces(const entry *e);
void share_object(const entry *e);
/* behind each of the passes that share objects and write events, but those of calls */
void note_record(const entry *e);
extern int has_fences;                 /* known before the third pass */
void share_fence(const entry *e);
void forget_states(void);              /* of objects, between the passes */
void begin_visits(void);               /* of each trace */
void write_holds(u32 t);               /* acquires of what it holds that aren't in the trace */
const hold *first_hold(u32 t), *hold_behind(const hold *h);  /* in the order of acquires; or null */
typedef void (*held_lock)(const char *operation, u32 t, const hold *h);
/* those whose acquires are in the trace, the oldest first */
void each_held(held_lock give, const char *operation);
void access_events(const entry *e);
void object_events(const entry *e);
void fence_events(const entry *e);

/* bundles.c: pieces that are one variable in a coarse trace of the run. */
extern int is_coarse;                  /* the run's trace has bundles, or may have some */
/* in the third pass: what stands for a plain access in a thread's region, and that it is the last of a
   piece */
u32 use_in_region(u32 t, int writes);
void note_history(piece_use *p, u32 in_region);
int form_bundles(void);                /* at its end; are there some? */
void end_region(u32 t);                /* in that pass and later ones: before what could give or take order */
void forget_phases(void);              /* before each trace */
u32 bundle_of(u32 number);             /* of a piece, or 0 */
int in_one_bundle(u32 first, u32 count);                     /* are neighbours? */
void use_bundle(u32 number, u32 t, int writes, u64 caller);
void refine(const map *names);         /* the pieces of bundles with these names are apart */

/* A list of threads is the number of its first entry, or 0. */
typedef struct { u32 thread, next; } list_entry;
const list_entry *entry_of_list(u32 list);                   /* or null */
void add_to_list(u32 *list, u32 thread);

/* events.c: the events of the trace. */
extern limits most;                    /* of the trace */
extern u64 events;                     /* of the run's trace so far */
extern u64 written;                    /* of the one that is written: the same, or those of the page */
extern const char *cut_reason;         /* null while the trace goes on */
void begin_events(void);               /* each pass that writes a trace */
void name_thread(u32 t, u64 function); /* by the function that it runs, where it has no name yet */
/* the same, by the functions that a record tells, if one is the program's own */
void name_by_own(u32 t, const entry *e);
/* a piece of one that the program gave; the main thread keeps its own */
void give_name(u32 t, const char *piece, int is_first);
const char *thread_name(u32 t);        /* with an end */
int has_events(u32 t);
int meets_thread(u32 t);               /* the trace names it; are these no more than it may have? */
void pass_event(u32 t);                /* an access that the page's trace lacks */
part name_of_thread(u32 t);            /* with WIDE bytes that may be read */
part variable_name(u64 address, u32 block_number);           /* it stands until the next call */
part piece_name(u32 number);           /* the same of a piece, with WIDE bytes that may be read */
/* Each returns the event's number in the trace, or 0. name: with WIDE bytes behind */
u64 event(u32 t, const char *operation, part name, u64 caller);
u64 access_event(u32 t, const char *operation, u32 piece, u64 caller, u64 own_place);
void lock_event(u32 t, const char *operation, u32 lock, u64 caller);
/* the same, which orders no thread */
void hold_event(u32 t, const char *operation, u32 lock, u64 caller, u32 stack);
/* of the bundle that begins with this piece; in a page's trace it is counted */
void bundle_event(u32 t, const char *operation, u32 piece, u64 own_place);
extern int is_unwritten;               /* the trace is made for that of a page alone */
void write_lines(void);                /* the last of the trace */
