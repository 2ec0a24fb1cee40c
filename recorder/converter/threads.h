/* What the passes know of each thread of a record. */

enum { THREADS = 1 << 20 };            /* of a record, whose numbers may be used again */
/* bytes of some texts that may be read: they are copied in such pieces */
enum { WIDE = 32 };
enum { THREAD_BYTES = 80 };            /* of a name */

/* A call that it is in. way: where code without hooks was called that has the caller, or 0. own: the
   innermost of the program's own places from here on further out, or 0. */
typedef struct {
    u64 caller, function, way, own;
    u64 place;                         /* as in a record OP_PLACE */
    u32 context, node;                 /* of the stack up to it */
} call;

/* An access by another thread of what lies in a function of a thread, since whose last record it is the first
   one. `number` is that of what has a name. */
typedef struct { u64 event; u32 number, depth; } foreign;

typedef struct {
    /* the outermost first; behind `length` are those that were met before */
    VECTOR(call) calls;
    u32 known, owned;                  /* of how many of the first the node is known, and the own place */
    /* its context by the records before; that of the present one; that of `calls`, with its depth */
    u32 told, now, in, length;
    u32 depth;                         /* of the present record: in so many functions of its context */
    const record *its;          /* the present one */
    u64 way, caller;                   /* of it */
    u64 end;                           /* of its stack */
    VECTOR(foreign) foreign;           /* since its last record */
    u64 records;
    u32 lowest;                        /* of the frames that are new since then */
    u32 last, last_outer;              /* the node that was asked for last */
    u64 last_caller, last_way;
} thread_calls;

/* A lock that it holds. key: of one that the program has its object, and whether it is a reader's. Once its
   acquire is in the trace lock is its number there, and acquire that of the acquire. orders: does that, or
   its release, order threads? The others are numbers: of the hold before and behind it in its thread's list,
   and of that of the same lock that is around it; `last` is where that of the last one of the lock is. */
typedef struct {
    u64 key, caller, acquire;
    u32 stack, lock, before, behind, around, last;
    uint8_t orders;
} hold;
#define ONLY_ORDERS (1ull << 63)       /* in the key of a lock of the trace's own */

typedef struct { u32 object, from, to; } note;   /* versions behind the first one, up to the other */

typedef struct {
    /* the trace that is written (events.c) */
    char name[THREAD_BYTES + WIDE];
    u32 name_length;
    uint8_t is_named;                  /* has it a name besides its number? */
    uint8_t has_begun, is_met;         /* has it events in the trace, or is it named there? */
    /* it grows with each event of the thread that could order another, and each trace */
    u64 epoch;
    u32 forked_by;                     /* plus one */
    u32 created_at;                    /* a node of the file of stacks */
    thread_calls calls;                /* stacks.c */
    /* objects.c */
    u32 first_hold, last_hold;         /* of a list, in the order in which they were taken */
    u32 unwritten;                     /* so many acquires aren't in the trace */
    u32 lock_count;                    /* so many locks of the program it holds, */
    u64 locks;                         /* and a sum of these */
    VECTOR(note) notes;                /* what it will take at its next fence */
    u64 taken_by;                      /* the last taking of noted versions that took one of its own */
    int is_fenced;                     /* by a release fence */
    /* its last record, and the object that it gave something by that; plus one */
    u64 gave_at, gave;
    int gave_once;                     /* the place of its last release had none of it before */
    /* bundles.c: the number of its region between two operations of order, or 0; as which users it has a last
       use that isn't in the trace */
    u32 region;
    VECTOR(u32) pending;
} thread_state;
extern thread_state *threads;          /* records.c; by their numbers there */
void forget_thread_states(void);       /* but their names, between passes that write */
