/* The record: it is mapped, and its file grows in steps.  Whatever fails ends the recording and not the
   program. Of a process made by fork the record stays in memory until it starts a thread, or has no room
   there. Of a program that runs on it is in segments: each is a whole record, and the oldest are deleted. */
#include "runtime.h"
#include <sys/sysinfo.h>

/* the file grows by so much; the record of a child has so much in memory */
enum { STEP_BYTES = 512 << 10, CHILD_BYTES = 4 << 20 };

int stall_seconds;
static char *header;
static record *records;
static uint64_t written, most_records;
static uint64_t forgotten, sum;        /* so many needn't be in memory; the sum of these, for the header */
static uint32_t contexts;              /* of the record so far */
uint64_t changes = 1;
static _Atomic uint64_t room;          /* records that the file has disk space for */
int in_memory;
static char *above;                    /* the header of the nearest process above this one that has a file */
/* that of the last access that was held back, or of the first where there are more records since */
static uint64_t last_position;
static uint64_t most_cells;
static char command[COMMAND_BYTES];    /* its line of the header */
uint64_t segment_records;
static uint64_t segment;               /* its number, from 1 */
static uint64_t segment_end;           /* it has so many records then */
static time_t segment_until;           /* it ends then at the latest, if it has one */

/* ---- how long it may get ---- */
static int is_limit_given;             /* by SHB_RECORDS */
static uint64_t reserve;               /* else: bytes of the disk that are left to others */
static _Atomic int is_half_told;

/* How many records, where SHB_RECORDS doesn't say: a position counts no more, and the converter has memory
   for them, 8 bytes for each and 20 for what they access. They are mapped, which takes no more than a quarter
   of the addresses that the program may have. */
enum { BYTES_TO_CONVERT = 28, PARTS_OF_ADDRESSES = 4 };
static uint64_t most_by_default(void) {
    struct sysinfo machine;
    struct rlimit addresses;
    uint64_t most = 1ull << (POSITION_BITS - ORDER_BITS);
    if (!sysinfo(&machine))
        most = least(most, (uint64_t)machine.totalram * machine.mem_unit / BYTES_TO_CONVERT);
    if (!getrlimit(RLIMIT_AS, &addresses))
        most = least(most, addresses.rlim_cur / PARTS_OF_ADDRESSES / sizeof *records);
    return most;
}

/* When the record gets its file. */
static void keep_reserve(void) {
    uint64_t space = free_space();
    reserve = is_limit_given || space == -1ull ? 0 : space / 10;
}

/* With so many records and so much space on the disk. */
static void tell_half(uint64_t have, uint64_t space) {
    if (!have || have >= most_records) return;
    uint64_t used = have * sizeof *records,
        left = least(most_records * sizeof *records - used, space - reserve);
    if (used < left || atomic_exchange(&is_half_told, 1)) return;
    tell("half of the room for the record is used: it has %lu MB, and ends after %lu MB more "
         "(SHB_RECORDS, disk space)",
         used >> 20, left >> 20);
}

static int add_step(uint64_t have) {
    uint64_t space = free_space();
    errno = ENOSPC;
    if (reserve && space < reserve + STEP_BYTES) return 0;
    tell_half(have, space);
    return add_space(RECORD, HEADER_BYTES + have * sizeof *records, STEP_BYTES);
}

/* What is written is in the file, and read no more: else it would count as the program's memory. */
static void forget_written(void) {
    uint64_t page = getpagesize(), from = (uint64_t)&records[forgotten] & -page,
        end = (uint64_t)&records[written] & -page;
    for (; forgotten < written; forgotten++) sum += entry_sum(forgotten, records[forgotten]);
    if (!in_memory && end > from) madvise((void *)from, end - from, MADV_DONTNEED);
}

static void grow(void) {
    if (!move_to_file()) return;
    uint64_t have = atomic_load(&room);
    int saved = errno;
    forget_written();
    int done = add_step(have);
    if (done) atomic_compare_exchange_strong(&room, &have, have + STEP_BYTES / sizeof *records);
    else if (errno != EINTR) {
        char reason[120];
        snprintf(reason, sizeof reason, "no disk space for the record (%s)", strerror(errno));
        stop_recording(errno == EFBIG ? "the limit of a file's size is reached (ulimit -f)" : reason);
    }
    errno = saved;
}

/* ---- segments: of a program that runs on ---- */
enum { MOST_SEGMENTS = 8, SEGMENT_SECONDS = 10 }; /* that are kept, besides the one that is written */

time_t seconds_now(void) {
    struct timespec time;
    clock_gettime(CLOCK_MONOTONIC_COARSE, &time);
    return time.tv_sec;
}

static void begin_counting(uint64_t before) {
    segment = before + 1;
    segment_end = written + segment_records;
    segment_until = seconds_now() + SEGMENT_SECONDS;
}

int is_segment_full(void) {
    return written >= segment_end
        || (written > segment_end - segment_records && seconds_now() >= segment_until);
}

/* ---- the locks that are held: a segment begins with them. So each access has its locks, and who releases
   one orders those who take it next ---- */
enum { MOST_HELD = 1 << 16 };
static record held_locks[MOST_HELD];                  /* by which they were taken, in their order */
static uint32_t held_count;

/* Ends the last hold with these bits, or all of them. Returns whether there was one. */
static int end_holds(uint64_t where, uint64_t bits, int all) {
    int found = 0;
    for (uint32_t k = held_count; k-- > 0 && (all || !found);) {
        if ((held_locks[k].where ^ where) & bits) continue;
        found = 1;
        held_count--;
        for (uint32_t i = k; i < held_count; i++) held_locks[i] = held_locks[i + 1];
    }
    return found;
}

/* Each record that may take or leave one. A lock may be released by another thread than took it. */
static void note_held(record r) {
    switch ((enum operation)(r.what >> 48 & 63)) {
    case OP_LOCK: case OP_READ_LOCK: case OP_WRITE_LOCK:
        if (held_count < MOST_HELD) held_locks[held_count++] = r;
        else stop_recording("too many locks are held");
        break;
    case OP_UNLOCK: case OP_RW_UNLOCK: if (!end_holds(r.where, ~0ull, 0)) end_holds(r.where, LOW_48_BITS, 0);
    break;
    case OP_LOCK_INIT: case OP_DESTROY: end_holds(r.where, LOW_48_BITS, 1); break;
    case OP_JOIN: end_holds(r.where << 48, ~LOW_48_BITS, 1); break;
    default: break;
    }
}

/* ---- records ---- */
static record record_of(const thread *t, enum operation operation, uint64_t where, uint64_t size,
                               uint64_t caller) {
    return (record){(where & LOW_48_BITS) | (uint64_t)t->number << 48,
                           (caller & LOW_48_BITS) | (uint64_t)operation << 48 | size << 54};
}

static void add_size(uint64_t size) { records[written++] = (record){size, (uint64_t)OP_SIZE << 48}; }

static void add(const thread *t, enum operation operation, uint64_t where, uint64_t size, uint64_t caller) {
    records[written++] = record_of(t, operation, where, size < SIZE_FOLLOWS ? size : SIZE_FOLLOWS, caller);
    if (size >= SIZE_FOLLOWS) add_size(size);
}

enum { ROOM = 5 };                     /* of one access, its depth and its way, with sizes */

static void note_told(thread *t, const context *c) { t->told = is_kept_context(c) ? c : 0; }

/* Tells the record that the thread is in these of its functions, where it hasn't them; or them alone. */
static void tell_context(thread *t, const context *now, int is_exact) {
    const context *c = t->told;
    while (c && c->depth > now->depth && !is_exact) c = c->outer;
    if (c == now) return;
    add(t, OP_CONTEXT, now->number, 0, 0);
    note_told(t, now);
}

static int has_depth_inside(enum operation operation, uint64_t size) {
    return is_plain(operation) && size <= 16 && !(size & (size - 1));
}

/* What stands in the place of the size, with the depth where that is known by it. */
static uint64_t inside_of(const thread *t, enum operation operation, uint64_t size) {
    uint32_t depth = t->depth < DEPTH_BEFORE ? t->depth : DEPTH_BEFORE;
    if (operation == OP_FREE) return 0;                      /* the converter knows the block */
    if (has_depth_inside(operation, size)) return __builtin_ctzl(size) | depth << LOGARITHM_BITS;
    if (is_plain(operation)) size += IS_RANGE;
    return size < SIZE_FOLLOWS ? size : SIZE_FOLLOWS;
}

/* With the turn. */
static int has_room(uint64_t count) {
    uint64_t end = written + count;
    return end <= most_records && end <= atomic_load_explicit(&room, memory_order_relaxed);
}

static RARE int grow_for(uint64_t count) {
    while (recording && !has_room(count)) {
        if (written + count > most_records) stop_recording("SHB_RECORDS is reached");
        else grow();
    }
    return recording;
}

/* While a thread works: afterwards there is room for so many records, or it returns 0. */
static inline int make_room(uint64_t count) { return recording && (has_room(count) || grow_for(count)); }

/* Those of the functions that the thread is in that the record hasn't. */
static void add_contexts(thread *t) {
    const context *outer = t->in;
    while (outer->number == NOT_RECORDED) outer = outer->outer;
    uint32_t d = outer->depth, depth = t->in->depth;
    if (d == depth || !make_room(4 * (depth - d) + 1)) return;
    tell_context(t, outer, 0);
    for (; d < depth; d++) {
        context *c = t->frames[d].in;
        uint64_t place = place_of_frame(t, d);
        if (place) add(t, OP_PLACE, place, 0, 0);
        if (c->way) add(t, OP_WAY, 0, 0, c->way);
        add(t, OP_FRAME, c->function, d, c->caller);
        c->number = ++contexts;
        note_told(t, c);
    }
}

int begin_work(thread *t) {
    t->works = 1;
    if (!keep_turn(t)) take_turn(t);
    return recording;
}

/* Is it a read that the thread made before, with nothing but reads of any thread in between?  Then it got the
   same value, by the same order. Where there are cells most such reads are held back. */
static int is_repeated(thread *t, record r) {
    for (const struct read *one = t->recent; one < t->recent + RECENT_READS; one++)
        if (one->r.where == r.where && one->r.what == r.what && one->changes == changes
            && one->context == t->in) return 1;
    t->recent[t->next_recent++ % RECENT_READS] = (struct read){r, changes, t->in};
    return 0;
}

/* ---- what is held back (cells.c) ---- */
void put_late(record r, uint64_t word) {
    if (!make_room(2)) return;
    records[written++] = (record){word & (IS_REPEATED | POSITIONS),
                                         word >> CONTEXT_AT | (uint64_t)OP_LATE << 48};
    records[written++] = r;
}

/* How many accesses can be held back before the next record. */
static uint64_t positions_left(void) {
    if (written >> (POSITION_BITS - ORDER_BITS)) return 0;
    if (last_position >> ORDER_BITS != written) last_position = written << ORDER_BITS;
    return (1 << ORDER_BITS) - 1 - last_position % (1 << ORDER_BITS);
}

/* That of an access that is made now, with its context. */
static uint64_t position_now(const thread *t) {
    int is_known = is_numbered(t->in) && t->kind != NO_KIND;
    return is_known
        && positions_left() ? (uint64_t)t->in->number << CONTEXT_AT | IS_REPEATED | (last_position + 1)
            : NO_POSITION;
}

/* A quick hook puts nothing. Each of its steps is a position. */
uint64_t begin_quick(thread *t) {
    uint64_t left = others && cell_regions ? positions_left() : 0;
    t->base = (IS_REPEATED | (last_position + 1)) - t->steps;
    return left;
}

void end_quick(thread *t) {
    if (!t->limit) return;
    t->kept = steps_in_turns(t);
    last_position = (t->base + t->kept - 1) & POSITIONS;
    t->limit = 0;
}

/* What the cells have to know of a record: how many bytes it accesses, or are new. */
static uint64_t bytes_of(enum operation operation, uint64_t size) {
    if (is_atomic(operation)) return size & ((1 << ATOMIC_SIZE_BITS) - 1);
    return is_plain(operation) || (operation >= OP_START && operation <= OP_FREE) ? size : 1;
}

static int is_held_back(thread *t, enum operation operation, record r, uint64_t bytes) {
    uint64_t position = is_plain(operation) || is_atomic(operation) ? position_now(t) : NO_POSITION;
    int held = cell_regions ? hold_back(t->serial, r, bytes, t->kind, position) : 0;
    last_position += held == IS_HELD;
    return held;
}

/* Of locks that it took unrecorded, or released so, the count is wrong, and so are its kinds for a while. */
static void count_locks(thread *t, const record *r, enum operation operation) {
    int takes = operation == OP_LOCK || operation == OP_READ_LOCK || operation == OP_WRITE_LOCK;
    if (!takes && operation != OP_UNLOCK && operation != OP_RW_UNLOCK) return;
    uint64_t lock = (r->where & LOW_48_BITS) * 0x9E3779B97F4A7C15u;
    lock = (lock ^ lock >> 32) * 0xD6E8FEB86659FD93u;        /* so sums of other ones differ */
    if (takes) t->locks++;
    else if (t->locks) t->locks--;
    set_locks(t, t->locks ? t->sum_of_locks + (takes ? lock : -lock) : 0);
}

static void put_now(thread *t, enum operation operation, pointer address, uint64_t size, uint64_t caller) {
    add_contexts(t);
    uint64_t inside = inside_of(t, operation, size);
    changes += !only_reads(operation);
    record r = record_of(t, operation, (uint64_t)address, inside, caller);
    if (is_held_back(t, operation, r, bytes_of(operation, size))
        || (only_reads(operation) && is_repeated(t, r)) || !make_room(ROOM)) return;
    int is_exact = inside >> LOGARITHM_BITS == DEPTH_BEFORE || !has_depth_inside(operation, size);
    if (t->told != t->in) tell_context(t, t->in, is_exact);
    uint64_t way = is_plain(operation) ? 0 : way_to(t, t->depth, caller);
    if (way) add(t, OP_WAY, 0, 0, way);
    records[written++] = r;
    if (inside == SIZE_FOLLOWS) add_size(size);
    if (segment_records) note_held(r);
    count_locks(t, &r, operation);
}

/* A long range takes as long as a slice, so that ends with it; the stack of a thread that starts does not. */
void put(thread *t, enum operation operation, pointer address, uint64_t size, uint64_t caller) {
    enum { LONG_RANGE = 1 << 20 };
    if (begin_work(t)) put_now(t, operation, address, size, caller);
    t->range = size;
    t->works = 0;
    if (size >= LONG_RANGE && operation != OP_START && !is_replaying) t->quantum = 0;
}

/* The record of another thread, which makes no more. */
void put_of(thread *t, const thread *ended, enum operation operation, pointer object, uint64_t caller) {
    if (begin_work(t) && make_room(1)) add(ended, operation, (uint64_t)object, 0, caller);
    t->works = 0;
}

static void add_name(const thread *named) {
    uint64_t one = 0, other = 0;
    for (size_t before = 0; !before || before < strlen(named->name); before += NAME_PIECE) {
        memcpy(&one, named->name + before, NAME_PIECE / 2);
        memcpy(&other, named->name + before + NAME_PIECE / 2, NAME_PIECE / 2);
        add(named, OP_NAME, one, before, other);
    }
}

void put_name(thread *t, thread *named, const char *name) {
    strncpy(named->name, name, NAME_ROOM - 1);
    if (begin_work(t) && make_room(2)) add_name(named);
    t->works = 0;
}

void note_bytes(enum yields yields, enum operation operation, pointer p, uint64_t size, uint64_t caller) {
    int saved = errno;
    if (size >= MAX_SIZE || (is_plain(operation) && hold_range(operation, (uint64_t)p, size, caller))) return;
    thread *t = enter_access(yields);
    if (t) {
        put(t, operation, p, size, caller);
        leave(t);
    }
    errno = saved;
}

void note(enum operation operation, pointer object, uint64_t caller) {
    note_bytes(MAY_YIELD, operation, object, 0, caller);
}

/* ---- begin and end ---- */
/* How the recording ended, for the converter; "" takes it back. */
void note_end(const char *how) { if (header) snprintf(header + ENDED_AT, ENDED_BYTES, "%s", how); }

static _Atomic int has_strangers;

void note_stranger(void) {
    if (!recording || atomic_exchange(&has_strangers, 1)) return;
    tell("the program has threads whose begin isn't seen, as the C library calls functions in "
         "(SIGEV_THREAD), or by a pthread_create that was looked up in it (dlsym): their races are missed");
}

/* A process below this one says so by the header's last byte, also when this one has ended. */
#define HAS_LOST(header) ((header)[HEADER_BYTES - 1])
#define CHILD_IS_LOST "a process made by fork starts threads and has no record"

void lose_record(void) {
    if (!in_memory || !header || !above) return;
    HAS_LOST(above) = 1;
    strcpy(above + ENDED_AT, CHILD_IS_LOST);
}

const char *own_end(void) {
    return has_strangers ? "threads ran whose begin isn't seen"
        : HAS_LOST(header) ? CHILD_IS_LOST : ENDED_WHOLE;
}

void stop_recording(const char *reason) {
    if (!end_turns()) return;
    note_end(reason);
    tell("%s; the recording ends here, the program goes on", reason);
}

static int can_look_at_threads(void) { /* without it no turn could be taken over */
    char text[512];
    if (read_task_file(syscall(SYS_gettid), "stat", text, sizeof text) > 0) return 1;
    tell("cannot read /proc/self/task/*/stat; the program runs unrecorded");
    return 0;
}

/* The command line, in which nothing may look like a line of the header. */
static void read_command(void) {
    strcpy(command, "command ");
    size_t at = strlen(command);
    int n = read_task_file(syscall(SYS_gettid), "cmdline", command + at, sizeof command - at - 1);
    if (n > 0 && !command[at + n - 1]) n--;                  /* the end of the last word */
    for (int i = 0; i < n; i++)
        if ((unsigned char)command[at + i] < ' ') command[at + i] = ' ';
    strcpy(command + at + (n > 0 ? n : 0), "\n");
}

const char *own_command(void) { return command; }

static uint64_t map_bytes(void) { return HEADER_BYTES + most_records * sizeof *records; }

static int use_map(void *map) {
    if (map == MAP_FAILED) return 0;
    header = map;
    records = (record *)(header + HEADER_BYTES);
    return 1;
}

int open_recording(const char *path, uint64_t most, uint64_t cells) {
    if (!can_look_at_threads()) return 0;
    if (!keep_path(path)) return refuse(path);
    read_command();
    if (!open_file(command, HEADER_BYTES + STEP_BYTES, 1)) return 0;
    is_limit_given = most != 0;
    most_records = is_limit_given ? most : most_by_default();
    keep_reserve();
    most_cells = cells;
    begin_counting(0);
    if (!use_map(map_file(RECORD, 0, map_bytes()))) return refuse(path);
    note_text(RECORD_MAGIC);
    note_text(command);
    begin_cells(most_cells);
    return 1;
}

static void forget_record(void) {
    written = contexts = forgotten = sum = 0;
    end_cells();
    begin_cells(most_cells);
    forget_contexts();
    changes++;                         /* the new record has no read */
}

static void note_whole(void) {
    char text[ENDED_BYTES];
    forget_written();
    snprintf(text, sizeof text, "%s %lx %lx", ENDED_WHOLE, written, sum);
    note_end(text);
    if (strcmp(own_end(), ENDED_WHOLE)) note_end(own_end()); /* asked for behind it: a child may say so now */
}

static void add_state_of(thread *t) {
    forget_told(t);
    if (t->stack_size) add(t, OP_START, (uint64_t)t->stack, t->stack_size, (uint64_t)t->function);
    if (*t->name) add_name(t);
}

/* What a segment begins with: the threads, and the locks that they hold. It has room for all that may be. */
static int add_state(void) {
    enum { RECORDS_OF_THREAD = 4 };
    uint64_t have = in_memory ? most_records : 0, most = THREAD_NUMBERS * RECORDS_OF_THREAD + held_count;
    if (most > most_records) return 0;
    for (; have < most; have += STEP_BYTES / sizeof *records)
        if (!add_step(have)) return 0;
    if (!in_memory) atomic_store(&room, have);
    for_all_threads(add_state_of);
    for (uint32_t k = 0; k < held_count; k++) records[written++] = held_locks[k];
    return 1;
}

/* The next segment's file takes the place of this one's, which is whole from there on: where it can't be had,
   the recording ends in this one. */
static int change_file(void) {
    cut_file(RECORD, HEADER_BYTES + written * sizeof *records);
    if (segment > MOST_SEGMENTS) drop_segment(segment - MOST_SEGMENTS);
    int before = take_file(), done = open_file(command, HEADER_BYTES + STEP_BYTES, segment + 1)
        && write_file(header, ENDED_AT);
    if (done) note_whole();
    syscall(SYS_close, before);
    return done && use_map(map_file(RECORD, header, map_bytes()));
}

static int begin_segment(void) {
    if (!in_memory && !change_file()) return 0;
    forget_record();
    int done = add_state();
    begin_counting(segment - in_memory);
    return done;
}

RARE void next_segment(thread *t) {
    int saved = errno, done = 1;
    if (begin_work(t) && is_segment_full()) done = begin_segment();
    t->works = 0;
    if (!done) stop_recording("the next segment of its record cannot be written");
    errno = saved;
}

/* ---- a process made by fork ---- */
/* Leaves the parent's record and goes on in memory with the header alone. */
int leave_recording(void) {
    char *parents = header;
    uint64_t kept = in_memory ? 0 : HEADER_BYTES;
    if (kept && above) munmap(above, HEADER_BYTES);
    if (kept) above = parents;
    header = 0;
    leave_file(RECORD);
    leave_file(TURNS);
    in_memory = 1;
    int going_on = has_number() && use_map(mmap(0, map_bytes(), PROT_READ | PROT_WRITE, NEW_MEMORY, -1, 0));
    if (going_on) strcpy(header, parents);
    has_strangers = is_half_told = 0;
    forget_record();
    if (!going_on) end_cells();
    if (self) forget_told(self);
    held_count = 0;
    begin_counting(0);
    atomic_store(&room, CHILD_BYTES / sizeof *records);
    munmap(parents + kept, map_bytes() - kept);
    return going_on;
}

/* Gives the record in memory its file; where that fails the recording ends. */
int move_to_file(void) {
    if (!in_memory) return 1;
    uint64_t bytes = HEADER_BYTES + written * sizeof *records;
    int moved = open_file(command, HEADER_BYTES + STEP_BYTES, 1) && write_file(header, bytes);
    keep_reserve();
    if (!moved) lose_record();
    atomic_store(&room, written);
    in_memory = 0;
    if (moved && use_map(map_file(RECORD, header, map_bytes()))) return 1;
    stop_recording("its record cannot be written");
    return 0;
}

/* With the turn nobody else writes, so the file can be cut.  Without it (the recording had ended before) a
   last record may still be on its way: then the zeros after the records stay. */
void close_recording(void) {
    thread *t = enter(NEVER_YIELD);
    end_turns();
    if (!t) return;
    if (!in_memory) cut_file(RECORD, HEADER_BYTES + written * sizeof *records);
    note_whole();
    leave(t);
}

/* With the turn: the program has so many addresses from now on. Is what has disk space few enough of them? */
int limit_record(uint64_t addresses) {
    uint64_t page = getpagesize(), before = map_bytes(), most = addresses / PARTS_OF_ADDRESSES / page * page;
    most_cells = least(most_cells, addresses / PARTS_OF_ADDRESSES);
    limit_cells(most_cells);
    if (most >= before) return 1;
    if (most < HEADER_BYTES + atomic_load(&room) * sizeof *records) return 0;
    most_records = (most - HEADER_BYTES) / sizeof *records;
    return !munmap(header + most, before - most);
}

/* What a program locks in memory is its own, and not what the recorder has. */
void unlock_record(void) {
    if (header) munlock(header, map_bytes());
    unlock_list();
    unlock_cells();
    unlock_contexts();
}

/* After the recording has ended: gives the room back, but for a page or two in which another thread's last
   record may be on its way. */
void give_back_room(void) {
    uint64_t page = getpagesize(), used = (HEADER_BYTES / page + written * sizeof *records / page + 2) * page;
    if (header && used < map_bytes()) munmap(header + used, map_bytes() - used);
}

void note_text(const char *line) {
    if (!header) return;
    size_t at = strlen(header), n = strlen(line);
    if (at + n < ENDED_AT && !strstr(header, line)) memcpy(header + at, line, n);
}
