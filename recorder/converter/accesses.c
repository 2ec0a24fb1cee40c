/* Accesses of memory: which blocks and pieces they use, and their events. */
#include "converter.h"

int whole_trace;
static VECTOR(list_entry) list_entries;
static map atomic_writers;

const list_entry *entry_of_list(u32 list) { return list ? &list_entries.at[list - 1] : 0; }

void add_to_list(u32 *list, u32 thread) {
    *PUSH(list_entries) = (list_entry){thread, *list};
    *list = list_entries.count;
}

static u64 end_of(const entry *e) { return e->address + accessed_bytes(e); }

/* What the passes know of each record, for the next: whether it means more than an access, and what it
   accesses, or 0. Until the third pass that is the block, plus one, in which the access begins; from there on
   its only piece, or behind these the first of its runs. */
typedef struct { u32 accessed : 31, means_more : 1; } known_record;
static known_record *known;

int is_passed_over(u64 i) { return !known[i].accessed && !known[i].means_more; }

/* ---- 1: users of blocks; a range over several is shared, to be cut at their bounds. What is shared is cut
   into pieces. ---- */
static void use_block(block *b, const entry *e, int with_others) {
    if (!b || b->users == SEVERAL) return;
    add_thread(&b->users, e->thread);
    if (with_others) b->users = SEVERAL;
    if (b->users == SEVERAL) b->shared_at = e->number;
}

static int means_more(const entry *e) {
    enum operation operation = e->operation;
    return e->is_late
        || (operation > OP_WRITE && operation != OP_FREE && operation != OP_USE && operation != OP_DESTROY);
}

/* Not so where an access that is late, with its context beside it, is none of the trace: its memory is of one
   thread alone. */
int means_access(const entry *e) { return !e->is_late || known[e->number].accessed; }

static void cut_access(const entry *e, u64 end) {
    note_caller_of(e);
    cut(e->address, end);
}

static int is_shared_block(const block *b) { return !b || b->users == SEVERAL; }

static u32 find_blocks(const entry *e, u64 end) {
    u32 number = number_at(e->address);
    block *first = block_of(number);
    use_block(first, e, 0);
    for (u64 at = end_of_same(e->address, end); at < end; at = end_of_same(at, end)) {
        block *b = block_at(at);
        use_block(b, e, b != first);
        if (b != first) use_block(first, e, 1);
    }
    if (is_shared_block(first)) cut_access(e, end);
    return number + 1;
}

void find_users(const entry *e) {
    u64 end = end_of(e);
    if (!known) known = zeroed(record_count, sizeof *known);
    known[e->number] = (known_record){end == e->address ? 0 : find_blocks(e, end), means_more(e)};
}

/* ---- 2: cuts by what accessed a block before another thread did; what has one user alone is left ---- */
void find_earlier_cuts(void) {
    for (u64 i = 0, end = 0; i < record_count; i++) {
        if (i == end) end = next_records(i);
        const block *b = known[i].accessed ? block_of(known[i].accessed - 1) : 0;
        if (b && b->users != SEVERAL) known[i].accessed *= whole_trace;
        else if (b && i < b->shared_at) {
            const entry e = entry_at(i);
            cut_access(&e, end_of(&e));
        }
    }
}

/* ---- 3: users of pieces ---- */
/* own, site: in the fourth pass, once one of its pieces is shared; else 0 */
typedef struct { u32 thread; int writes, writes_atomically, reads; u64 own; u32 site; } use;

static use use_of(const entry *e) {
    enum { WRITES = 1 << OP_WRITE | 1 << OP_FREE | 1 << OP_DESTROY };
    return (use){.thread = e->thread, .writes = WRITES >> e->operation & 1, .reads = e->operation == OP_READ,
                 .writes_atomically = is_atomic(e->operation) && e->operation != OP_ATOMIC_LOAD};
}

static int only_reads(const use *u) { return !u->writes && !u->writes_atomically; }

static inline void add_use(piece_use *p, const use *u, u32 in_region) {
    if (in_region == APART) p->last = APART;
    else note_history(p, in_region);
    add_thread(&p->users, u->thread);
    if (u->reads) add_thread(&p->readers, u->thread);
    if (only_reads(u)) return;
    add_thread(&p->writers, u->thread);
    p->written |= u->writes;
    p->written_atomically |= u->writes_atomically;
}

/* Neighbours. Most uses are as the last one of the piece: by its thread, in the same region. */
static inline void share_run(const entry *e, const use *u, u32 in_region, u32 first, u32 count) {
    piece_use *p = use_of_piece(first);
    for (u32 k = 0; k < count; k++) {
        p[k].uses += in_region != APART;
        if (p[k].last != in_region || in_region == APART) add_use(&p[k], u, in_region);
    }
    if (only_reads(u)) return;
    piece *its = piece_of(first);
    for (u32 k = 0; k < count; k++) {
        its[k].last_write = e->number;
        if (u->writes_atomically && map_adds(&atomic_writers, first + k, u->thread))
            add_to_list(&its[k].atomic_writers, u->thread);
    }
}

/* Neighbours mostly have numbers that follow each other: so an access has runs of these. */
typedef struct { u32 first, count : 31, is_last : 1; } run;
static VECTOR(run) runs;

/* Adds neighbours to the runs of an access, which begin at `from`. */
static void add_to_runs(u64 from, u32 first, u32 count) {
    run *last = runs.count > from ? &runs.at[runs.count - 1] : 0;
    if (last && last->first + last->count == first) {
        last->count += count;
        return;
    }
    if (runs.count == MOST_PIECES) die("out of memory");
    *PUSH(runs) = (run){.first = first, .count = count};
}

/* Several ones, from `from` on, are kept once, if the last that were met with the same begin are the same. */
static RARE u64 kept_runs(u64 from) {
    enum { RECENT = 4096 };
    static u64 recent[RECENT];
    u64 *last = &recent[runs.at[from].first % RECENT];
    u64 bytes = (runs.count - from) * sizeof *runs.at;
    if (*last < from && !memcmp(&runs.at[*last], &runs.at[from], bytes)) runs.count = from;
    else *last = from;
    return *last;
}

/* Those of an access, as known_record has them. */
static u32 share_all(const entry *e, const use *u) {
    u32 in_region = u->reads || u->writes ? use_in_region(u->thread, u->writes) : APART;
    u64 from = runs.count, end = end_of(e);
    for (u64 at = e->address; at < end;) {
        u32 count, first = neighbours_at(&at, end, &count);
        share_run(e, u, in_region, first, count);
        if (count == 1 && at == end && runs.count == from) return first;
        add_to_runs(from, first, count);
    }
    runs.at[runs.count - 1].is_last = 1;
    return MOST_PIECES + 1 + (runs.count > from + 1 ? kept_runs(from) : from);
}

static const run *runs_of(u32 found) { return &runs.at[found - MOST_PIECES - 1]; }

void share_pieces(const entry *e) {
    int may_be_unseen = is_plain(e->operation) || e->operation == OP_FREE;
    known_record *k = &known[e->number];
    if (k->accessed && may_be_unseen && is_unseen(e->caller)) k->accessed = 0;
    if (!k->accessed) return;
    const use u = use_of(e);
    block *b = block_of(k->accessed - 1);
    if (is_shared_block(b)) k->accessed = share_all(e, &u);
    else share_run(e, &u, APART, k->accessed = piece_of_block(b), 1);
}

piece *only_piece(const entry *e) {
    u32 number = known[e->number].accessed;
    return number && number <= MOST_PIECES ? piece_of(number) : 0;
}

/* ---- 4: events ---- */
/* Whether each visit of a piece has events, in the order of the run: that for a page follows it. */
static VECTOR(u64) visits;
static u64 visit;                      /* the next one */

static void note_visit(int has_events) {
    if (visit % 64 == 0) *PUSH(visits) = 0;
    visits.at[visit / 64] |= (u64)has_events << visit % 64;
    visit++;
}

static int next_visit(void) {
    u64 k = visit++;
    return k / 64 < visits.count && (visits.at[k / 64] >> k % 64 & 1);
}

void begin_visits(void) {
    visit = 0;
    if (!is_for_page()) visits.count = 0;
}

static void find_own(const entry *e, use *u) {
    if (u->own) return;
    u->own = own_place(u->thread, e->caller);
    u->site = site_of(u->own);
}

static u64 site_and_thread(const use *u) {
    return u->site | (u64)u->thread << 32 | (u64)u->reads << 63;             /* an atomic one tells less */
}

/* The same read, by the same thread at the same place under the same locks, with no write of the variable
   since, and nothing since by which the thread could order another: all that it conflicts with, and all that
   it orders, the first does too. Behind the variable's last write it conflicts with nothing that comes, so
   locks and orders don't matter. A place is a location: of two reads in one line the second repeats the
   first. */
static int repeats(const entry *e, const use *u, u32 number) {
    enum { RECENT = 1 << 14 };
    typedef struct { u64 site, epoch, locks; u32 piece, writes; } read;
    static read *recent;
    if (!recent) recent = zeroed(RECENT, sizeof *recent);
    const thread_state *s = &threads[u->thread];
    const piece *p = piece_of(number);
    read this = {.site = site_and_thread(u), .piece = number, .writes = p->writes};
    if (e->number < p->last_write) {
        this.epoch = s->epoch + 1;
        this.locks = s->locks;
    }
    read *last = &recent[(mix(this.site, 0) + number) & (RECENT - 1)];       /* neighbours are side by side */
    int same = last->site == this.site && last->piece == number && last->writes == this.writes
        && last->epoch == this.epoch && last->locks == this.locks;
    *last = this;
    return same;
}

/* The events of a read in a page's trace, unless they are known to stand for others. */
typedef struct { u64 from, end; } read_events;

static void keep_event(read_events *kept, u64 event) {
    if (!event || !kept) return;
    if (event != kept->end) kept->from = event;
    kept->end = event + 1;
}

/* An event of the variable itself, or of that which stands for its atomic writes by one thread. The page's
   trace lacks those of variables in no race, but each thread's first one. Returns its number in the trace
   that is written, if it isn't known yet whether it stands for others; else 0. */
static u64 piece_event(const entry *e, const use *u, u32 number, const char *operation, u32 writer) {
    char text[NAME_BYTES + THREAD_BYTES];
    u64 event_number = 0, caller = e->caller;
    int is_kept = takes_piece(number);
    if (!is_kept && has_events(u->thread)) pass_event(u->thread);
    else if (writer == NOBODY) event_number = access_event(u->thread, operation, number, caller, u->own);
    else {
        part name = piece_name(number);
        int length = snprintf(text, sizeof text, "%.*s!%s", TEXT(name), thread_name(writer));
        event_number = event(u->thread, operation, (part){text, length}, caller);
    }
    if (is_kept) note_sight(u->thread, u->own, number, writer, *operation == 'w');
    if (!event_number || !is_repeated(e)) return event_number;
    note_repeated(u->thread, event_number);
    return 0;
}

static int is_shared(const piece_use *p) { return whole_trace || (p->users == SEVERAL && p->written); }
static int has_others(some_threads s, u32 t) { return s && s != t + 1; }

/* A read by the only thread that writes conflicts with nothing, and tells nothing. */
static int may_have_events(const use *u, const piece_use *users) {
    if (!is_shared(users) && !u->writes_atomically && !users->written_atomically) return 0;
    return !only_reads(u) || has_others(users->writers, u->thread) || whole_trace;
}

/* An atomic write is a read of X, so that it conflicts with plain writes, and a write of a variable of X and
   its thread alone, which the plain reads of others read too: so it conflicts with these, and never with an
   atomic access. */
static inline void piece_events(const entry *e, const use *u, u32 number, read_events *kept) {
    const piece_use *users = use_of_piece(number);
    piece *p = piece_of(number);
    if (is_shared(users)) keep_event(kept, piece_event(e, u, number, u->writes ? "w" : "r", NOBODY));
    if (u->writes) p->writes++;
    if (u->writes_atomically && has_others(users->readers, u->thread)) {
        piece_event(e, u, number, "w", u->thread);
        p->writes++;
    }
    if (!u->reads) return;
    for (const list_entry *k = entry_of_list(p->atomic_writers); k; k = entry_of_list(k->next), extra_steps++)
        if (k->thread != u->thread) keep_event(kept, piece_event(e, u, number, "r", k->thread));
}

static char word_of(const entry *e, const use *u) {
    int is_wide = accessed_bytes(e) > 8;
    if (e->operation == OP_FREE) return 'f';
    if (is_atomic(e->operation)) return u->writes_atomically ? 'a' : 'l';
    return u->writes ? is_wide ? 'W' : 'w' : is_wide ? 'R' : 'r';
}

/* `before`: so many events were written before those of the access. Of a local only an event has a name; of a
   block any access may tell it. */
static RARE void note_piece(const entry *e, const use *u, u32 number, u64 before) {
    const piece *p = piece_of(number);
    const block *b = block_of(p->block);
    if (written == before && (!b || b->stack)) return;
    note_name(p->at, p->block, before + 1, u->thread);
    if (e->operation == OP_FREE) return;
    note_use_of_block(p->at, p->block,
                      (use_of_block){e->address, accessed_bytes(e), e->caller, !only_reads(u)});
}

static inline void use_piece(const entry *e, use *u, u32 number) {
    u64 before = written;
    int has_events = may_have_events(u, use_of_piece(number));
    if (has_events) find_own(e, u);
    if (has_events && only_reads(u) && !whole_trace) has_events = !repeats(e, u, number);
    note_visit(has_events);
    if (has_events) piece_events(e, u, number, 0);
    if (with_stacks) note_piece(e, u, number, before);
}

/* What was omitted in the run's trace isn't in the page's, where the last read of its site stands for it. */
static void use_on_page(const entry *e, use *u, u32 number) {
    static INTERNED(read_events) reads;          /* by sites, each with its thread, and pieces */
    u64 before = written;
    int made = next_visit(), is_kept = takes_piece(number);
    read_events *kept = 0;
    if (!made && !is_kept) return;
    if (is_kept || !has_events(u->thread)) find_own(e, u);
    if (is_kept && only_reads(u)) kept = ENTRY(reads, site_and_thread(u), number);
    if (kept && made) *kept = (read_events){0};
    if (made) piece_events(e, u, number, kept);
    else for (; kept && kept->from < kept->end; kept->from++) note_repeated(u->thread, kept->from);
    if (!is_kept) return;
    count_use(u->thread, e->caller, u->own, number, word_of(e, u));
    if (with_stacks) note_piece(e, u, number, before);
}

static void use_variable(const entry *e, use *u, u32 number) {
    u32 bundle = bundle_of(number);
    if (bundle) use_bundle(bundle, u->thread, u->writes, e->caller);
    else if (is_for_page()) use_on_page(e, u, number);
    else use_piece(e, u, number);
}

void access_events(const entry *e) {
    u32 found = known[e->number].accessed;
    if (!found) return;
    use u = use_of(e);
    if (found <= MOST_PIECES) use_variable(e, &u, found);
    else for (const run *r = runs_of(found); r; r = r->is_last ? 0 : r + 1) {
        u32 count = in_one_bundle(r->first, r->count) ? 1 : r->count;
        for (u32 k = 0; k < count && !cut_reason; k++) use_variable(e, &u, r->first + k);
    }
}
