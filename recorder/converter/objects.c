/* Objects: locks, and all whose order is told by locks. */
#include "converter.h"

/* Who gave a version, or NOBODY, and up to which one the giver had taken them. */
typedef struct { u32 giver, taken; } given;
/* A post of a semaphore: its number, of the object's own, and up to which one its thread had taken them. */
typedef struct { u32 number, poster, taken; } post;

typedef struct {
    u64 at;
    const char *mark;                  /* before the versions in its names */
    u32 block;                         /* its number, or 0 */
    some_threads threads;              /* that used it */
    u32 lock;                          /* the number of its own lock in the trace, once it has one */
    u32 holder, depth;                 /* of a lock: the thread that took it, plus one, and how often */
    /* how often it gave something; the number of the lock of its updates */
    u32 version, head;
    u32 stores;                        /* of the atomic: so far */
    u32 gifts, first_gift, last_gift;  /* what its present value gives: how many sights; their list */
    VECTOR(given) given;               /* by versions, if the program has fences */
    u32 begun;                         /* the version before the present value's first */
    /* of a semaphore: the last post of each thread, in their order, and not yet forgotten ones; how many were
       there when these were forgotten */
    VECTOR(post) posts;
    u32 posters;
    VECTOR(u32) readers;               /* of a reader-writer lock: since the last writer */
    u32 count, users, arrivals;        /* of a barrier */
    uint8_t is_of_atomic, recounted;   /* recounted: begun again with another count */
    uint8_t foreign;                   /* released by another thread than took it */
    u32 section;                       /* of a lock: its last critical section, of the third pass; or 0 */
    u32 writer;                        /* of a reader-writer lock: who has taken a hold to write, plus one */
} object;

static INTERNED(object) objects;
/* For a thread and an object: the last version, post or round that the thread has seen, and the last version
   that it will take at a fence, with the number of that note; the last that it gave itself, or its last post,
   and behind how many stores. `gift` is the version by which the present value gives on what the thread gave,
   or 0; if it is locked, whoever takes the lock of the object's head gets it too. Those of an object are a
   list by the numbers of sights, the oldest first. */
typedef struct { u32 last, noted, note, gave, stores, gift, giver, locked, before, behind; } sight;
static INTERNED(sight) seen;
static sight *sight_at(u32 number) { return &seen.at[number - 1]; }
static INTERNED(u32) version_readers;  /* for object and version: the list of those who will read it */

static VECTOR(hold) holds;             /* their numbers begin at 1 */
static u32 free_hold;                  /* one that has ended; `behind` it is another one */
static INTERNED(u32) last_holds;       /* by lock and thread; not of those that only order */

static u64 index_of(const object *o) { return o - objects.at; }

/* A program's own lock may have an atomic and what is told of it at one address: these are two objects. */
static u32 find_object(u64 at, int is_of_atomic) {
    u64 of_atomic = (u64)is_of_atomic << 63, of_other = ~of_atomic & 1ull << 63;
    u32 block = block_number(block_at(at)), number = INTERN(objects, at | of_atomic, block);
    object *o = &objects.at[number - 1];
    const char *mark = o->mark ? o->mark : map_find(&objects.numbers, at | of_other, block) ? "@@" : "@";
    if (!o->mark) *o = (object){.at = at, .mark = mark, .block = block, .is_of_atomic = is_of_atomic};
    return number;
}

static object *object_of(const entry *e) {
    int is_of_atomic = is_atomic(e->operation);
    piece *p = only_piece(e);
    if (p && p->at != e->address) p = 0;         /* in a block that is one */
    u32 number = p ? p->object : 0;
    if (!number || objects.at[number - 1].is_of_atomic != is_of_atomic)
        number = find_object(e->address, is_of_atomic);
    if (p) p->object = number;
    return &objects.at[number - 1];
}

static sight *sight_of(const object *o, u32 t) { return ENTRY(seen, index_of(o), t); }
static u32 *seen_by(const object *o, u32 t) { return &sight_of(o, t)->last; }

static void new_version(object *o, u32 t) { *seen_by(o, t) = ++o->version; }

static void add_reader(object *o, u32 t) {
    for (u64 i = 0; i < o->readers.count; i++)
        if (o->readers.at[i] == t) return;
    *PUSH(o->readers) = t;
}

/* ---- memory orders: who takes what from whom; the same in the third and the fourth pass ---- */
typedef void (*handing)(object *o, u32 version, u32 taker, u64 caller);
int has_fences;

static u32 add_version(object *o, u32 giver, u32 taken) {
    if (has_fences) *PUSH(o->given) = (given){giver, taken};
    return ++o->version;
}

static void drop_gift(object *o, u32 number) {
    sight *s = sight_at(number);
    *(s->before ? &sight_at(s->before)->behind : &o->first_gift) = s->behind;
    *(s->behind ? &sight_at(s->behind)->before : &o->last_gift) = s->before;
    s->gift = 0;
    o->gifts--;
}

static sight *add_gift(object *o, u32 number, u32 t, u32 version, int locked) {
    sight *s = sight_at(number);
    s->gift = version, s->giver = t, s->locked = locked, s->before = o->last_gift, s->behind = 0;
    *(s->before ? &sight_at(s->before)->behind : &o->first_gift) = number;
    o->last_gift = number;
    o->gifts++;
    return s;
}

/* What t gave before, and what it has taken, is in what it gives now. */
static sight *give(object *o, u32 t, int locked) {
    u32 number = INTERN(seen, index_of(o), t), last = sight_at(number)->last;
    if (sight_at(number)->gift) drop_gift(o, number);
    while (o->gifts && sight_at(o->first_gift)->gift <= last) drop_gift(o, o->first_gift);
    return add_gift(o, number, t, add_version(o, t, last), locked);
}

/* t takes all gifts of the present value that it hasn't; what the lock of the head gives only if that
   isn't taken. */
static void take_gifts(object *o, u32 t, int by_lock, handing hand, u64 caller) {
    u32 last = *seen_by(o, t);
    for (u32 k = o->last_gift; k && sight_at(k)->gift > last; k = sight_at(k)->before) {
        const sight *g = sight_at(k);
        if (g->giver != t && !(by_lock && g->locked)) hand(o, g->gift, t, caller);
    }
    *seen_by(o, t) = o->version;
}

void note_record(const entry *e) {
    thread_state *s = &threads[e->thread];
    if (s->gave_at != e->number + 1) s->gave = 0;
}

static void note_gift(const entry *e, const object *o) {
    threads[e->thread].gave = index_of(o) + 1;
    threads[e->thread].gave_at = e->number + 1;
}

/* Who gave, and takes what others gave before it does anything else, may give it all on, and nothing besides:
   so those who take after it take one gift. Returns whether it does. */
static int gives_all_on(object *o, u32 t) {
    if (o->gifts <= 2 || threads[t].gave != index_of(o) + 1 || !sight_of(o, t)->gift) return 0;
    give(o, t, 0);
    return 1;
}

/* A relaxed read: t will take what versions from one on give at its next fence, if there is one. Those that
   go on from its last note are in that, unless a store came between. */
static void note_versions(object *o, u32 t, u32 from, u32 to) {
    sight *s = sight_of(o, t);
    thread_state *its = &threads[t];
    note *last = s->note && s->note <= its->notes.count ? &its->notes.at[s->note - 1] : 0;
    if (last && last->object == index_of(o) && last->to == from && from > o->begun) last->to = to;
    else {
        *PUSH(its->notes) = (note){index_of(o), from, to};
        s->note = its->notes.count;
    }
}

/* The gift of a version before the store that began the value is one that goes on. */
static void note_gifts(object *o, u32 t) {
    sight *s = sight_of(o, t);
    u32 last = s->noted > s->last ? s->noted : s->last, from = last > o->begun ? last : o->begun;
    u32 first = o->gifts ? sight_at(o->first_gift)->gift : 0;
    if (first <= o->begun && first > last) note_versions(o, t, first - 1, first);
    if (from < o->version) note_versions(o, t, from, o->version);
    s->noted = o->version;
}

/* Of each giver the newest, but for what was taken before by the giver of a newer one. */
static void take_versions(const note *n, u32 t, handing hand, u64 caller) {
    static u64 takes;
    object *o = &objects.at[n->object];
    u32 from = n->from;
    takes++;
    for (u32 version = n->to; version > from; version--) {
        const given g = o->given.at[version - 1];
        if (g.giver == NOBODY || g.giver == t || threads[g.giver].taken_by == takes) continue;
        threads[g.giver].taken_by = takes;
        hand(o, version, t, caller);
        if (g.taken > from) from = g.taken;
    }
}

static void take_noted(u32 t, handing hand, u64 caller) {
    EACH(n, threads[t].notes) take_versions(n, t, hand, caller);
    threads[t].notes.count = 0;
}

static void read_value(const entry *e, object *o, int by_lock, handing hand) {
    if (acquires(e)) take_gifts(o, e->thread, by_lock, hand, e->caller);
    else if (has_fences) note_gifts(o, e->thread);
}

/* After a release fence of its thread each store and update counts as a release. */
static int gives(const entry *e) { return releases(e) || threads[e->thread].is_fenced; }

/* An update that acquires and releases does so by a lock that it shares with its like. */
static int is_by_lock(const entry *e) { return e->operation == OP_ATOMIC_UPDATE && acquires(e) && gives(e); }

static void give_own(object *o, u32 t, int locked) {
    sight *s = give(o, t, locked);
    s->gave = o->version;
    s->stores = o->stores;
}

/* A store that gives begins anew; any other ends what other threads gave, and goes on with its own thread's,
   which may be in a gift of another one by now. */
static void store_value(const entry *e, object *o) {
    u32 t = e->thread;
    u32 number = INTERN(seen, index_of(o), t);
    sight *s = sight_at(number);
    int goes_on = !gives(e) && s->gave && s->stores == o->stores;
    while (o->gifts) drop_gift(o, o->first_gift);
    o->begun = o->version;
    o->stores++;
    if (goes_on) {
        add_gift(o, number, t, s->gave, 0);
        s->stores = o->stores;
    }
    if (gives(e)) give_own(o, t, 1);
    else add_version(o, NOBODY, 0);
    o->head = o->version;
}

/* An update keeps what the value before gave, but for what is in its own gift; one by the lock has
   taken all. */
static void write_value(const entry *e, object *o) {
    if (gives(e)) note_gift(e, o);
    if (e->operation == OP_ATOMIC_STORE) {
        store_value(e, o);
        return;
    }
    if (gives(e)) give_own(o, e->thread, is_by_lock(e));
}

static void pass_fence(const entry *e, handing hand) {
    if (acquires(e)) take_noted(e->thread, hand, e->caller);
    if (releases(e)) threads[e->thread].is_fenced = 1;
}

/* t takes what the last writer gave, if it hasn't. */
static void take_newest(object *o, u32 t, handing hand, u64 caller) {
    u32 *last = seen_by(o, t);
    if (*last != o->version) hand(o, *last = o->version, t, caller);
}

static int is_last_post(const object *o, const post *p) { return sight_of(o, p->poster)->gave == p->number; }

static void add_post(object *o, u32 t) {
    enum { FEW = 16 };
    u64 kept = 0;
    sight *s = sight_of(o, t);
    s->gave = ++o->version;
    *PUSH(o->posts) = (post){o->version, t, s->last};
    if (o->posts.count < 2 * o->posters + FEW) return;
    EACH(p, o->posts)
        if (is_last_post(o, p)) o->posts.at[kept++] = *p;
    o->posts.count = o->posters = kept;
}

/* t takes what all posts give that it hasn't: of each other thread the last one since its wait before, but
   what the thread of a later post had taken is in that. */
static void take_posts(object *o, u32 t, handing hand, u64 caller) {
    u32 *last = seen_by(o, t), first = *last;
    *last = o->version;
    for (u64 k = o->posts.count; k && o->posts.at[k - 1].number > first; k--) {
        const post *p = &o->posts.at[k - 1];
        if (p->poster == t || !is_last_post(o, p)) continue;
        hand(o, p->number, t, caller);
        if (p->taken > first) first = p->taken;
    }
}

/* ---- 3: who uses and who reads what ---- */
/* A store passes what it gives to each of its takers by a lock of these two alone, so that no taker orders
   another. For this the takers of each version are found first. */
static u64 takes_of_record;

static void add_taker(object *o, u32 version, u32 t, u64 unused) {
    takes_of_record++;
    add_to_list(ENTRY(version_readers, index_of(o), version), t);
}

static void share_atomic(const entry *e, object *o) {
    if (e->operation != OP_ATOMIC_STORE) read_value(e, o, is_by_lock(e), add_taker);
    if (e->operation == OP_ATOMIC_LOAD) {
        if (acquires(e)) gives_all_on(o, e->thread);
    } else write_value(e, o);
}

/* What a record takes of more than one thread grows with threads by threads. */
static void count_takes(void) {
    enum { STEPS = 64 };
    if (takes_of_record > 1) extra_steps += STEPS * (takes_of_record - 1);
    takes_of_record = 0;
}

void share_fence(const entry *e) {
    pass_fence(e, add_taker);
    count_takes();
}

/* Of each acquire of a lock, in the order of the run: is there another thread's critical section right before
   or behind its own? Else it takes nothing that its thread doesn't know, and its release gives nothing to
   another one that the next section's doesn't. An acquire of a lock that the thread holds begins none. */
static VECTOR(uint8_t) orders_others;
static u64 acquires_met;               /* in this pass */

static void share_acquire(object *o, u32 t, int is_again) {
    *PUSH(orders_others) = 0;
    if (is_again) return;
    if (o->section && o->holder != t + 1)
        orders_others.at[o->section - 1] = orders_others.at[orders_others.count - 1] = 1;
    o->section = orders_others.count;
}

static void share_lock(object *o, u32 t, enum operation operation) {
    int taken = o->depth && o->holder == t + 1;
    if (operation == OP_LOCK) {
        if (o->depth && !taken) o->foreign = 1;
        share_acquire(o, t, taken);
        o->holder = t + 1;
        o->depth++;
    } else if (operation == OP_UNLOCK) {
        if (!taken) o->foreign = 1;
        if (o->depth) o->depth--;
    } else {
        if (o->depth) o->foreign = 1;
        o->depth = 0;
    }
}

void share_object(const entry *e) {
    u32 t = e->thread;
    object *o = object_of(e);
    add_thread(&o->threads, t);
    switch (e->operation) {
    case OP_LOCK: case OP_UNLOCK: case OP_LOCK_INIT: share_lock(o, t, e->operation); break;
    case OP_ATOMIC_LOAD: case OP_ATOMIC_STORE: case OP_ATOMIC_UPDATE: share_atomic(e, o); break;
    case OP_READ_LOCK: take_newest(o, t, add_taker, 0); break;
    case OP_WRITE_LOCK: o->holder = t + 1; break;
    case OP_RW_UNLOCK:
        if (o->holder != t + 1) break;
        o->holder = 0;
        new_version(o, t);
        break;
    case OP_POST: add_post(o, t); break;
    case OP_WAIT: take_posts(o, t, add_taker, 0); break;
    case OP_BARRIER_INIT:
        if (o->count && o->count != size_of(e)) o->recounted = 1;
        o->count = size_of(e);
        break;
    case OP_ARRIVE:
        if (!*seen_by(o, t)) o->users++;
        *seen_by(o, t) = 1;
        break;
    default: break;
    }
    count_takes();
}

void forget_states(void) {
    acquires_met = holds.count = free_hold = 0;
    EACH_OF(o, objects.at, objects.numbers.count) {
        o->depth = o->holder = o->version = o->head = o->arrivals = o->writer = o->posters = 0;
        o->begun = o->gifts = o->first_gift = o->last_gift = 0;
        o->given.count = o->posts.count = o->readers.count = 0;
    }
    if (seen.at) memset(seen.at, 0, seen.numbers.count * sizeof *seen.at);
    if (last_holds.at) memset(last_holds.at, 0, last_holds.numbers.count * sizeof *last_holds.at);
}

/* ---- 4: which of an object's locks: its own (no sign), or a reader's own of a reader-writer lock
   ("X@reader.T2"); "X@3", of its third version; "X@3>T2" (passed to T2), "X@3<T2" (passed by T2); with "@@"
   of a second object at an address ---- */
typedef struct { char sign; u32 version, thread; } which;
static const which own = {0}, of_reader = {.sign = 'r'};
static which of_version(u32 version) { return (which){'@', version, 0}; }
static which to_thread(u32 version, u32 t) { return (which){'>', version, t}; }
static which by_thread(u32 version, u32 t) { return (which){'<', version, t}; }

static INTERNED(part) locks;           /* of the trace: their names */
part lock_name(u32 number) { return locks.at[number - 1]; }

/* The number of a lock in the trace. Its name is made once. */
static u32 lock_of(object *o, which w, u32 t) {
    enum { TAIL_BYTES = THREAD_BYTES + 40 };
    char text[NAME_BYTES + TAIL_BYTES];
    u64 thread = w.sign == 'r' ? t : w.thread;
    if (!w.sign && o->lock) return o->lock;
    u32 number = INTERN(locks, index_of(o) << 8 | w.sign, thread << 32 | w.version);
    if (!w.sign) o->lock = number;
    if (locks.at[number - 1].length) return number;
    part name = variable_name(o->at, o->block);
    char *tail = mempcpy(text, name.at, name.length);
    if (w.sign == 'r') tail += snprintf(tail, TAIL_BYTES, "@reader.%s", thread_name(t));
    else if (w.sign) tail += snprintf(tail, TAIL_BYTES, "%s%u", o->mark, w.version);
    if (w.sign == '<' || w.sign == '>')
        tail += snprintf(tail, text + sizeof text - tail, "%c%s", w.sign, thread_name(w.thread));
    char *kept = zeroed(tail - text + WIDE, 1);
    locks.at[number - 1] = (part){memcpy(kept, text, tail - text), tail - text};
    return number;
}

/* ---- 4: the locks that a thread holds, of those that the program has. The acquire of some tells a thread
   nothing: of a lock whose sections right before and behind are of the thread too, or are none; of
   reader-writer locks, whose order is told by locks of their own. Such a lock is acquired in the trace right
   before its thread's next event, if there is one until the release: so each lock that is held at an access
   in the trace is there. ---- */
static u64 key_of(const object *o, which w) { return index_of(o) << 1 | (w.sign == 'r'); }
static object *object_of_key(u64 key) { return &objects.at[key >> 1]; }
static u32 lock_of_key(u64 key, u32 t) {
    return lock_of(object_of_key(key), is_for_reading(key) ? of_reader : own, t);
}
int is_for_reading(u64 key) { return key & 1; }
part name_of_held(u64 key) {
    return variable_name(object_of_key(key)->at, object_of_key(key)->block);
}

/* Before an event of it. */
static void note_lock(const object *o, u32 t, u64 caller) {
    note_name(o->at, o->block, written + 1, t);
    note_use_of_block(o->at, o->block, (use_of_block){.at = o->at, .caller = caller});
}

static u64 acquire_count;                   /* in all traces */

static void write_hold(u32 t, hold *h, const char *operation, u64 caller, u32 stack) {
    if (is_over()) return;
    note_lock(object_of_key(h->key), t, caller);
    h->lock = lock_of_key(h->key, t);
    hold_event(t, operation, h->lock, caller, stack);
}

static hold *hold_at(u32 number) { return number ? &holds.at[number - 1] : 0; }
const hold *first_hold(u32 t) { return hold_at(threads[t].first_hold); }
const hold *hold_behind(const hold *h) { return hold_at(h->behind); }

void write_holds(u32 t) {
    u32 left = threads[t].unwritten;
    hold *h = left ? hold_at(threads[t].last_hold) : 0;
    while (h && (left -= !h->acquire)) h = hold_at(h->before);
    for (; h; h = hold_at(h->behind)) {
        if (h->acquire) continue;
        write_hold(t, h, "acq", h->caller, h->stack);
        h->acquire = ++acquire_count;
    }
    threads[t].unwritten = 0;
}

/* The last one of a lock, or null. One that only orders ends before its thread takes another. */
static hold *hold_of(u32 t, u64 key) {
    hold *h = hold_at(threads[t].last_hold);
    if (!h || h->key == key) return h;
    u32 *last = FOUND(last_holds, key, t);
    return last ? hold_at(*last) : 0;
}

static map sets;                       /* of locks that a thread held */

int are_sets_apart(void) { return sets.count <= SETS_APART; }

/* A thread has a lock more, or less. */
static void change_set(thread_state *s, const hold *h, int sign) {
    if (h->key & ONLY_ORDERS) return;
    if (!h->around) s->lock_count += sign;
    s->locks += sign * mix(h->key + 1, 0);
    if (s->locks) map_number(&sets, s->locks, 0);
}

static void add_hold(u32 t, hold added) {
    thread_state *s = &threads[t];
    u32 number = free_hold ? free_hold : holds.count + 1;
    if (free_hold) free_hold = hold_at(number)->behind;
    else PUSH(holds);
    if (!(added.key & ONLY_ORDERS)) {
        added.last = INTERN(last_holds, added.key, t);
        added.around = last_holds.at[added.last - 1];
        last_holds.at[added.last - 1] = number;
    }
    added.before = s->last_hold;
    *(added.before ? &hold_at(added.before)->behind : &s->first_hold) = s->last_hold = number;
    *hold_at(number) = added;
    s->unwritten += !added.acquire;
    change_set(s, &added, 1);
}

static void end_hold(u32 t, hold *h) {
    thread_state *s = &threads[t];
    s->unwritten -= !h->acquire;
    change_set(s, h, -1);
    *(h->before ? &hold_at(h->before)->behind : &s->first_hold) = h->behind;
    *(h->behind ? &hold_at(h->behind)->before : &s->last_hold) = h->before;
    if (h->last) last_holds.at[h->last - 1] = h->around;
    h->behind = free_hold;
    free_hold = h - holds.at + 1;
}

static void take_hold(object *o, u32 t, which w, u64 caller) {
    add_hold(t, (hold){.key = key_of(o, w), .caller = own_place(t, caller), .stack = stack_at(t, caller)});
}

static int leave_hold(object *o, u32 t, which w, u64 caller) {
    hold *h = hold_of(t, key_of(o, w));
    if (!h) return 0;
    if (h->acquire) write_hold(t, h, "rel", own_place(t, caller), stack_at(t, caller));
    end_hold(t, h);
    return 1;
}

void each_held(held_lock give, const char *operation) {
    typedef struct { u64 acquire; const hold *hold; u32 thread; } held;
    static VECTOR(held) all;
    all.count = 0;
    EACH_THREAD(t)
        for (const hold *h = first_hold(t); h; h = hold_behind(h))
            if (h->acquire) *PUSH(all) = (held){h->acquire, h, t};
    SORT(all, by_number);
    EACH(it, all) give(operation, it->thread, it->hold);
}

/* Does an operation order threads? */
static int orders_threads(const entry *e, const object *o) {
    const hold *h = e->operation == OP_UNLOCK ? hold_of(e->thread, key_of(o, own)) : 0;
    int is_of_several = e->operation == OP_LOCK ? orders_others.at[acquires_met++] : !h || h->orders;
    return whole_trace || (o->threads == SEVERAL && (is_of_several || o->foreign));
}

/* What an operation means for these, before and after its other events. */
static void holds_before(const entry *e, object *o, int is_private) {
    u32 t = e->thread;
    if (e->operation == OP_UNLOCK && is_private) leave_hold(o, t, own, e->caller);
    if (e->operation != OP_RW_UNLOCK) return;
    if (o->holder != t + 1) leave_hold(o, t, of_reader, e->caller);
    else if (leave_hold(o, t, own, e->caller)) o->writer = 0;
}

static void holds_after(const entry *e, object *o, int is_private) {
    u32 t = e->thread;
    if (e->operation == OP_LOCK && is_private && !o->foreign) take_hold(o, t, own, e->caller);
    if (e->operation == OP_READ_LOCK) take_hold(o, t, of_reader, e->caller);
    if (e->operation != OP_WRITE_LOCK) return;
    o->holder = t + 1;
    if (o->writer) return;             /* its last writer never released it */
    take_hold(o, t, own, e->caller);
    o->writer = t + 1;
}

/* ---- 4: events ---- */
/* Returns the lock, or 0 where the trace has no more events. */
static u32 use_lock(object *o, u32 t, const char *operation, which w, u64 caller) {
    if (is_over()) return 0;
    note_lock(o, t, caller);
    u32 lock = lock_of(o, w, t);
    lock_event(t, operation, lock, caller);
    return lock;
}

static void take_lock(object *o, u32 t, which w, u64 caller) {
    u32 lock = use_lock(o, t, "acq", w, caller);
    u64 key = w.sign ? ONLY_ORDERS | lock : key_of(o, w);
    u32 stack = lock ? stack_at(t, caller) : 0;
    add_hold(t, (hold){key, own_place(t, caller), ++acquire_count, stack, lock, .orders = 1});
}

static void leave_lock(object *o, u32 t, which w, u64 caller) {
    u32 lock = use_lock(o, t, "rel", w, caller);
    hold *h = hold_of(t, w.sign ? ONLY_ORDERS | lock : key_of(o, w));
    if (h) end_hold(t, h);
}

static void pass_lock(object *o, u32 t, which w, u64 caller) {
    take_lock(o, t, w, caller);
    leave_lock(o, t, w, caller);
}

static void publish(object *o, u32 version, u32 t, u64 caller) {
    u32 *readers = FOUND(version_readers, index_of(o), version);
    const list_entry *reader = readers ? entry_of_list(*readers) : 0;
    for (; reader; reader = entry_of_list(reader->next))
        pass_lock(o, t, to_thread(version, reader->thread), caller);
}

static void take_version(object *o, u32 version, u32 t, u64 caller) {
    pass_lock(o, t, to_thread(version, t), caller);
}

void fence_events(const entry *e) {
    if (acquires(e)) note_fence(e);
    pass_fence(e, take_version);
}

/* A store that gives is the first to take the lock of its head, so by that it gives alone. */
static void atomic_events(const entry *e, object *o) {
    u32 t = e->thread;
    u64 caller = e->caller;
    int stores = e->operation == OP_ATOMIC_STORE, loads = e->operation == OP_ATOMIC_LOAD;
    int by_lock = is_by_lock(e) || (stores && gives(e));
    if (o->threads == SEVERAL) note_use(e, index_of(o), gives(e));
    if (!stores) read_value(e, o, by_lock, take_version);
    if (loads && acquires(e) && gives_all_on(o, t)) publish(o, o->version, t, caller);
    if (!loads) write_value(e, o);
    if (by_lock) take_lock(o, t, of_version(o->head), caller);
    access_events(e);
    if (by_lock) leave_lock(o, t, of_version(o->head), caller);
    if (!loads && gives(e)) publish(o, o->version, t, caller);
}

static void write_lock_events(object *o, u32 t, u64 caller) {
    pass_lock(o, t, of_version(o->version), caller);
    EACH(reader, o->readers) pass_lock(o, t, by_thread(o->version, *reader), caller);
    o->readers.count = 0;
    o->holder = t + 1;
}

static void rw_unlock_events(object *o, u32 t, u64 caller) {
    if (o->holder != t + 1) {          /* a reader */
        pass_lock(o, t, by_thread(o->version, t), caller);
        add_reader(o, t);
        return;
    }
    o->holder = 0;
    new_version(o, t);
    pass_lock(o, t, of_version(o->version), caller);
    publish(o, o->version, t, caller);
}

static void post_events(object *o, u32 t, u64 caller) {
    add_post(o, t);
    publish(o, o->version, t, caller);
}

/* rounds are told apart where no thread can skip one */
static void arrive_events(object *o, u32 t, u64 caller) {
    int has_rounds = o->count && o->users <= o->count && !o->recounted;
    u32 round = has_rounds ? o->arrivals / o->count : 0;
    o->arrivals++;
    *seen_by(o, t) = round;
    pass_lock(o, t, of_version(round), caller);
}

static void order_events(const entry *e, object *o) {
    u32 t = e->thread;
    u64 caller = e->caller;
    switch (e->operation) {
    case OP_LOCK: case OP_UNLOCK:
        if (o->foreign) pass_lock(o, t, own, caller);
        else if (e->operation == OP_LOCK) take_lock(o, t, own, caller);
        else leave_lock(o, t, own, caller);
        break;
    case OP_READ_LOCK: take_newest(o, t, take_version, caller); break;
    case OP_WRITE_LOCK: write_lock_events(o, t, caller); break;
    case OP_RW_UNLOCK: rw_unlock_events(o, t, caller); break;
    case OP_POST: post_events(o, t, caller); break;
    case OP_WAIT: take_posts(o, t, take_version, caller); break;
    case OP_ARRIVE: arrive_events(o, t, caller); break;
    case OP_DEPART: pass_lock(o, t, of_version(*seen_by(o, t)), caller); break;
    case OP_ATOMIC_LOAD: case OP_ATOMIC_STORE: case OP_ATOMIC_UPDATE: atomic_events(e, o); break;
    default: break;
    }
}

/* Is it the first at its place by which the thread gives? Until the next all is behind it alone. */
static void note_release(const entry *e) {
    static map places;
    int is_atomic_one = is_atomic(e->operation) && e->operation != OP_ATOMIC_LOAD && gives(e);
    if (is_for_page() && (is_atomic_one || e->operation == OP_UNLOCK || e->operation == OP_RW_UNLOCK
                          || e->operation == OP_POST))
        threads[e->thread].gave_once = map_adds(&places, e->caller, e->thread);
}

void object_events(const entry *e) {
    object *o = object_of(e);
    int orders = orders_threads(e, o);
    holds_before(e, o, !orders);
    if (!is_atomic(e->operation) || !orders) access_events(e);
    note_release(e);
    if (orders) order_events(e, o);
    else if (e->operation == OP_RW_UNLOCK && o->holder == e->thread + 1) o->holder = 0;
    holds_after(e, o, !orders);
}
