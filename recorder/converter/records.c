/* The record as it stands in the file, and what each of its entries accesses. */
#include "converter.h"

enum { MAX_FREED = 1024 };

static const char *record_path;
u64 record_count;

/* ---- the records in the order of the passes ---- */
static const record *entries, *carried, *from;        /* of the file; of the segment before; now */
static u32 *order;                     /* as by put_in_order, behind those that are carried */
u64 entry_count;
static u64 carried_count;
enum { AT_ONCE = 1 << 16 };            /* entries */

void is_damaged(const char *how) { die("record of %s is damaged: %s", record_path, how); }

/* A pass over all has gone by those before: they needn't stay in memory. */
void forget_before(u64 i) {
    enum { PAGE = 4096 };
    static u64 forgotten;
    if (i < forgotten) forgotten = 0;
    if (i - forgotten < AT_ONCE) return;
    uintptr_t first = (uintptr_t)&entries[forgotten] & -PAGE, behind = (uintptr_t)&entries[i] & -PAGE;
    madvise((void *)first, behind - first, MADV_DONTNEED);
    forgotten = i;
}

u64 next_records(u64 i) {
    from = i < carried_count ? carried : entries;
    if (i < carried_count) return carried_count;
    if (i < record_count && !(order[i] & IS_LATE)) forget_before(order[i]);
    return i + AT_ONCE;
}

/* ---- threads: the number of one that is over is used again by the next one forked with it ---- */
static u32 thread_count;               /* of those met in this pass */
static u32 with_number[THREAD_NUMBERS];
static uint8_t is_used[THREAD_NUMBERS]; /* by one that was forked, or was there when a segment began */

u32 other_thread_of(const entry *e) { return with_number[e->address]; }

void begin_thread_pass(void) {
    thread_count = 1;
    for (u32 n = 0; n < THREAD_NUMBERS; n++) with_number[n] = n;
    memset(is_used, 0, sizeof is_used);
}

void meet_start(const entry *e) { is_used[e->its->where >> 48] = 1; }

static u32 own_numbers = 1;            /* those of threads in records that were met are below it */

static void note_number(u64 number) {
    if (number >= own_numbers) own_numbers = number + 1;
}

u32 next_thread(u32 t) { return t + 1 == own_numbers ? THREAD_NUMBERS : t + 1; }

u32 thread_bound(void) { return thread_count < THREAD_NUMBERS ? THREAD_NUMBERS : thread_count; }

int meet_fork(const entry *e) {
    u32 number = e->address;
    if (is_used[number]) with_number[number] = thread_bound();
    if (with_number[number] == THREADS) return 0;
    is_used[number] = 1;
    if (with_number[number] >= thread_count) thread_count = with_number[number] + 1;
    return 1;
}

thread_state *threads;

static __attribute__((constructor)) void map_threads(void) { threads = mapped(THREADS, sizeof *threads); }

void forget_thread_states(void) {
    EACH_THREAD(t) {
        thread_state *s = &threads[t];
        thread_calls *c = &s->calls;
        c->calls.count = c->known = c->owned = c->told = c->now = c->in = c->length = c->depth = c->last = 0;
        s->first_hold = s->last_hold = s->unwritten = s->lock_count = s->locks = 0;
        s->has_begun = s->is_met = 0;
        s->epoch++;
        s->forked_by = s->notes.count = s->is_fenced = s->gave = s->pending.count = 0;
    }
}

u32 threads_met(void) { return thread_count > own_numbers ? thread_count : own_numbers; }

static int size_follows(const record *r) { return r->what >> 54 == SIZE_FOLLOWS; }
static int is_access(const record *r) { return is_plain(operation_in(*r)); }

static u64 size_in(const record *r) {
    u64 inside = r->what >> 54;
    if (inside == SIZE_FOLLOWS) return r[1].where;
    if (!is_access(r)) return inside;
    return inside & IS_RANGE ? inside - IS_RANGE : 1ull << (inside & ((1 << LOGARITHM_BITS) - 1));
}

inline entry entry_at(u64 i) {
    const record *its = &from[order[i] & ~IS_LATE];
    return (entry){.its = its, .number = i, .address = its->where & LOW_48_BITS,
                   .caller = its->what & LOW_48_BITS, .thread = with_number[its->where >> 48],
                   .operation = operation_in(*its), .is_late = order[i] / IS_LATE};
}

inline u64 size_of(const entry *e) { return size_in(e->its); }

u64 depth_inside(const record *r) {
    u64 inside = r->what >> 54;
    u64 depth = is_access(r) && !(inside & IS_RANGE) ? inside >> LOGARITHM_BITS : DEPTH_BEFORE;
    return depth == DEPTH_BEFORE ? MOST_FRAMES : depth;
}

/* ---- whether the entries are good ---- */
static inline int is_good(const record *r) {
    enum operation operation = operation_in(*r);
    if (operation <= OP_SIZE || operation >= OP_LATE || r->where >> 48 >= THREAD_NUMBERS) return 0;
    if (size_follows(r) && (operation_in(r[1]) != OP_SIZE || size_follows(r + 1) || size_in(r) >= MAX_SIZE))
        return 0;
    if (is_access(r)) return r->what >> 54 & IS_RANGE || size_in(r) <= 16;
    if (operation == OP_FRAME) return size_in(r) < MOST_FRAMES;
    if (operation == OP_CONTEXT) return !size_in(r);
    if (operation == OP_NAME) return size_in(r) == 0 || size_in(r) == NAME_PIECE;
    return (operation != OP_FORK && operation != OP_JOIN) || (r->where & LOW_48_BITS) < THREAD_NUMBERS;
}

/* The entry or the two at `r`, number i of `count`. Returns how many they are, or 0: they aren't whole. */
static inline u64 check(const record *r, u64 i, u64 count) {
    u64 are_two = is_of_two(*r);
    if (!r->what || (are_two && (i + 1 == count || !r[1].what))) return 0;
    const record *its = r + is_late(*r);
    if ((is_late(*r) && !is_good_late(r->where, *its, i)) || !is_good(its))
        die("record %lu of %s is damaged", i + 1, record_path);
    note_number(its->where >> 48);
    if (operation_in(*its) == OP_FORK || operation_in(*its) == OP_JOIN) note_number(its->where & LOW_48_BITS);
    return 1 + are_two;
}

/* What a record that is whole says of itself. */
static u64 whole_count, whole_sum;
static int has_sum;

/* The entries up to the first that isn't whole. */
static void check_entries(u64 most) {
    u64 sum = 0, at = 0;
    if (most >= IS_LATE) die("%s has more entries than shb-std takes (%u)", record_path, IS_LATE - 1);
    for (u64 more; at < most && (more = check(&entries[at], at, most)); forget_before(at)) {
        if (is_late(entries[at])) note_late(at, entries[at].where, most);
        for (; more; more--, at++) sum += entry_sum(at, entries[at]);
    }
    entry_count = at;
    if (has_sum && entry_count < whole_count)
        die("%s was cut: %lu of its %lu records are there", record_path, entry_count, whole_count);
    if (has_sum && (entry_count > whole_count || sum != whole_sum))
        die("%s was changed after it was recorded", record_path);
    order = zeroed(entry_count, sizeof *order);
    record_count = put_in_order(entries, entry_count, order);
}

static char *map_file(const char *path, u64 *size) {
    int f = open(path, O_RDONLY);
    struct stat status;
    if (f < 0 || fstat(f, &status)) cannot_read(path);
    *size = status.st_size;
    if (!S_ISREG(status.st_mode) || *size < HEADER_BYTES) die("%s is no record", path);
    char *file = mmap(0, *size, PROT_READ, MAP_PRIVATE, f, 0);
    if (file == MAP_FAILED) cannot_read(path);
    return file;
}

const char *recording_cut;

static void note_how_it_ended(const char *how) {
    static char reason[ENDED_BYTES];
    memcpy(reason, how, ENDED_BYTES - 1);
    for (char *p = reason; *p; p++)
        if ((unsigned char)*p < ' ') *p = '!';
    if (!*reason) recording_cut = "the program was killed";
    else if (sscanf(reason, ENDED_WHOLE " %lx %lx", &whole_count, &whole_sum) == 2) has_sum = 1;
    else if (strcmp(reason, ENDED_WHOLE)) recording_cut = reason;
}

static void refuse(const char *file, const char *path) {
    size_t before = strcspn(RECORD_MAGIC, "0123456789"), digits = strspn(file + before, "0123456789");
    if (strncmp(file, RECORD_MAGIC, before) || !digits || digits > 9) die("%s is no record", path);
    die("%s is a record of version %.*s, by another version of the recorder; this shb-std reads version %.*s",
        path, (int)digits, file + before, (int)strcspn(RECORD_MAGIC + before, "\n"), RECORD_MAGIC + before);
}

void open_record(const char *path) {
    static char header[HEADER_BYTES + 1];
    u64 size;
    char *file = map_file(path, &size);
    if (strncmp(file, RECORD_MAGIC, strlen(RECORD_MAGIC))) refuse(file, path);
    entries = (record *)(file + HEADER_BYTES);
    record_path = path;
    memcpy(header, file, HEADER_BYTES);
    note_how_it_ended(header + ENDED_AT);
    header[ENDED_AT] = 0;
    check_entries((size - HEADER_BYTES) / sizeof *entries);
    read_modules(header);
}

void carry_blocks(const char *path) {
    struct stat status;
    FILE *file = fopen(path, "r");
    if (!file || fstat(fileno(file), &status)) cannot_read(path);
    carried_count = status.st_size / sizeof *carried;
    record *blocks = zeroed(carried_count, sizeof *blocks);
    if (fread(blocks, sizeof *blocks, carried_count, file) != carried_count) die("cannot read %s", path);
    fclose(file);
    for (u64 i = 0, more; i < carried_count; i += more)
        if (!(more = check(&blocks[i], i, carried_count))) die("%s is damaged", path);
    u32 *behind = order;
    order = zeroed(carried_count + record_count, sizeof *order);
    for (u64 i = 0; i < carried_count; i++) order[i] = i;
    memcpy(order + carried_count, behind, record_count * sizeof *order);
    free(behind);
    carried = blocks;
    record_count += carried_count;
}

/* ---- what a record accesses ---- */
/* The memory order of an atomic access or a fence: does it take over what a release gave, does it give on? */
static u64 order_of(const entry *e) {
    return e->operation == OP_FENCE ? size_of(e) : size_of(e) % IS_EXCHANGE >> ATOMIC_SIZE_BITS;
}
int is_exchange(const entry *e) { return e->operation == OP_ATOMIC_UPDATE && size_of(e) & IS_EXCHANGE; }
int acquires(const entry *e) { return order_of(e) != __ATOMIC_RELAXED && order_of(e) != __ATOMIC_RELEASE; }
int releases(const entry *e) { return order_of(e) >= __ATOMIC_RELEASE; }

/* The use of a lock is a read of its first byte.  A descriptor is no memory; who leaves a barrier uses it no
   more, for POSIX lets another thread end it then. */
static int uses_object(const entry *e) {
    return e->address < FIRST_DESCRIPTOR && e->operation >= OP_LOCK && e->operation <= OP_USE
        && e->operation != OP_BARRIER_INIT && e->operation != OP_DEPART;
}

/* The size of a block that was seen; its allocator may free more than was asked for. */
static u64 freed_bytes(u64 address) {
    block *b = block_at(address);
    if (!b || b->at != address) return 0;
    return b->size < MAX_FREED ? b->size : MAX_FREED;
}

static RARE u64 bytes_of_other(const entry *e) {
    if (is_atomic(e->operation)) return size_of(e) & ((1 << ATOMIC_SIZE_BITS) - 1);
    if (e->operation == OP_FREE) return freed_bytes(e->address);
    return e->operation == OP_DESTROY || uses_object(e);
}

u64 accessed_bytes(const entry *e) { return is_plain(e->operation) ? size_of(e) : bytes_of_other(e); }
