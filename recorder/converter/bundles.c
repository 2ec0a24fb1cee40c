/* Bundles: pieces of a block that are one variable in a *coarse* trace of the run, so that it is short. The
   field knows this as dynamic granularity.

   A bundle has pieces that the same threads read and wrote in the same regions: between the same two of their
   operations that could give or take order. Mostly these are the bytes of a buffer. Its name is that of its
   first piece with "~" behind. Its uses are phases: of one thread that writes, or of threads that only read.
   Of each thread in a phase the trace has the first use, and one in the place of the last or later, but
   before the next phase.

   If shb places --list has no race of a bundle, each two of its uses that conflict are ordered, without what
   its reads tell. Then no piece of it is in a race, and the other variables have the races that they have in
   the trace of all pieces. So shb decides which pieces are in no race, and any pieces that are only read and
   written plainly may be a bundle. If it has races of bundles, a finer trace follows, in which their pieces
   are apart, and if others have races then, that of all pieces. Each has at most an event for each access of
   a piece. */
#include "converter.h"

int is_coarse;

typedef struct {
    u32 piece;                         /* its first one */
    u32 phase, writer;                 /* its phase now; who writes in it, plus one, or 0 */
    u32 users;                         /* of this phase, a list */
    u32 thread, user;                  /* who used it last, plus one; its number as a user */
    uint8_t is_apart;
} bundle;
static VECTOR(bundle) bundles;

/* A thread that uses a bundle in a phase. own: the place of its first use; is_pending: it had further ones,
   and the trace lacks the last. */
typedef struct { u64 own; u32 bundle, thread, phase, next; int is_pending; } user;
static INTERNED(user) users;

/* ---- 3: which pieces are used alike ---- */
enum { WRITES = 1 };                   /* in `last` of a piece: beside twice the region's number */

u32 use_in_region(u32 t, int writes) {
    static u32 regions;
    thread_state *s = &threads[t];
    if (!s->region) s->region = ++regions;
    return s->region * 2 + (writes ? WRITES : 0);
}

void note_history(piece_use *p, u32 in_region) {
    int is_same = (p->last | WRITES) == (in_region | WRITES);
    if (p->last == APART || (is_same && p->last >= in_region)) return;
    p->sum = mix(p->sum, in_region);
    p->last = in_region;
}

/* The bundle of a piece with this sum; 0: it is the first one. Pieces that are used alike are mostly met one
   after the other, so a table of recent ones finds them. */
static u32 join_bundle(u32 number, u32 sum) {
    enum { RECENT = 1 << 14 };
    typedef struct { u32 block, sum, piece, bundle; } kind;
    static kind recent[RECENT];
    u32 block = piece_of(number)->block;
    kind *k = &recent[mix(block, sum) % RECENT];
    if (!k->piece || k->block != block || k->sum != sum) *k = (kind){block, sum, number, 0};
    else if (!k->bundle) {
        *PUSH(bundles) = (bundle){.piece = k->piece};
        k->bundle = use_of_piece(k->piece)->sum = bundles.count;
    }
    return k->bundle;
}

/* Only if they have most of the uses: else a coarse trace would hardly be shorter. */
int form_bundles(void) {
    u64 uses = 0, of_bundles = 0;
    for (u32 number = 1; number <= piece_count(); number++) {
        piece_use *u = use_of_piece(number);
        int is_in_trace = u->users == SEVERAL && u->written;
        u->sum = is_in_trace && u->last != APART ? join_bundle(number, u->sum) : 0;
        uses += is_in_trace ? u->uses : 0;
    }
    for (u32 number = piece_count(), behind = 0; number; number--) {
        piece_use *u = use_of_piece(number);
        of_bundles += u->sum ? u->uses : 0;
        u->last = behind && u[1].sum == u->sum ? behind + 1 : 1;
        behind = u->last;
    }
    if (of_bundles < uses / 2) bundles.count = 0;
    return bundles.count != 0;
}

/* ---- 4: events ---- */
static void begin_phase(bundle *b, u32 writer) {
    b->phase++;
    b->writer = writer;
    b->users = 0;
}

void forget_phases(void) {
    EACH(b, bundles) begin_phase(b, 0);
}

u32 bundle_of(u32 number) { return is_coarse ? use_of_piece(number)->sum : 0; }

int in_one_bundle(u32 first, u32 count) { return use_of_piece(first)->last >= count && bundle_of(first); }

static void write_use(const user *u) {
    const bundle *b = &bundles.at[u->bundle - 1];
    bundle_event(u->thread, b->writer ? "w" : "r", b->piece, u->own);
}

static void write_last_use(user *u) {
    if (u->is_pending) write_use(u);
    u->is_pending = 0;
}

static RARE void use_anew(u32 number, u32 t, int writes, u64 caller) {
    bundle *b = &bundles.at[number - 1];
    if (b->thread != t + 1) {
        b->thread = t + 1;
        b->user = INTERN(users, number, t);
    }
    if (b->writer != t + 1 && (writes || b->writer)) {
        for (u32 k = b->users; k; k = users.at[k - 1].next) write_last_use(&users.at[k - 1]);
        begin_phase(b, writes ? t + 1 : 0);
    }
    user *u = &users.at[b->user - 1];
    if (u->phase != b->phase) {
        *u = (user){own_place(t, caller), number, t, b->phase, b->users, 0};
        b->users = b->user;
        write_use(u);
    } else if (!u->is_pending) {
        u->is_pending = 1;
        *PUSH(threads[t].pending) = b->user;
    }
}

/* Most uses are like those before. */
void use_bundle(u32 number, u32 t, int writes, u64 caller) {
    const bundle *b = &bundles.at[number - 1];
    int is_in_phase = b->thread == t + 1 && (b->writer == t + 1 || !(b->writer || writes));
    const user *u = is_in_phase ? &users.at[b->user - 1] : 0;
    if (!u || b->phase != u->phase || !u->is_pending) use_anew(number, t, writes, caller);
}

void end_region(u32 t) {
    thread_state *s = &threads[t];
    EACH(k, s->pending) write_last_use(&users.at[*k - 1]);
    s->pending.count = s->region = 0;
}

/* ---- refinement ---- */
void refine(const map *names) {
    char text[NAME_BYTES + 1];
    EACH(b, bundles) {
        part name = piece_name(b->piece);
        *(char *)mempcpy(text, name.at, name.length) = '~';
        b->is_apart |= map_find_bytes(names, text, name.length + 1) != 0;
    }
    for (u32 number = 1; number <= piece_count(); number++) {
        u32 found = bundle_of(number);
        if (found && bundles.at[found - 1].is_apart) use_of_piece(number)->sum = 0;
    }
}
