/* The order of turns: a list of them that is written beside the record, and one that the process
   is to follow.

   A *step* of a thread is where it may lose the turn: a hook, before its record; a call that may block; a
   lock that is busy; the end of another thread's start, in which it may have slept.  Each thread counts its
   own, and what of its accesses is recorded changes nothing of them.  An entry of the list has a thread's
   number and how many steps it had made when another thread got the turn; a turn that a thread gave and got
   back is one with that before.  Who gets a lock that several want is a matter of microseconds: so where a
   thread didn't get one at once, or a wait ended otherwise than most do, a further entry has its steps so far
   and UNUSUAL.  What a clock showed has two, each with UNUSUAL, VALUE and a half of it.

   PATH.turns has HEADER bytes of text (TURNS_MAGIC, "command WORD WORD..", and where the recording ended
   "whole COUNT SUM", hexadecimal, by which a copy that was cut or changed is known), and the entries of 8
   bytes, until one of zeros or the file's end.  A process made by fork has none.

   In a replay only the thread of the next entry gets the turn, and loses it after as many steps.  What it
   waits for is no lock and no signal but that turn, at whose begin it takes the lock.  The replay is left
   where that thread doesn't come: then a wait for a condition ends, which may be at any time. */
#include "runtime.h"

#define TURNS_MAGIC ANY_TURNS "5\n"     /* another number where steps are counted otherwise */
enum { HEADER = 4096, STEP_BYTES = 1 << 20, MOST_BYTES = 128 << 20, FEW = 1 << 15 };

#define UNUSUAL (1ull << 47)
#define VALUE (1ull << 46)
static uint64_t entry_of(const thread *t, uint64_t steps) {
    return (uint64_t)t->number << 48 | (steps & (UNUSUAL - 1));
}
static uint64_t thread_of_entry(uint64_t entry) { return entry >> 48; }
static uint64_t steps_of_entry(uint64_t entry) { return entry & (UNUSUAL - 1); }

/* ---- the list that is written; under the guard where nothing else is said ---- */
static char *header;
enum { MOST_EARLY = 64 };              /* of what clocks showed before the list has a file */
static uint64_t early[MOST_EARLY];
static uint64_t *volatile turns = early; /* 0: no more are written */
static volatile uint64_t count;
static _Atomic uint64_t room = MOST_EARLY; /* turns that the file has disk space for */
static _Atomic int is_growing;
static thread *runs;                   /* who got the turn last */

/* By the first thread, before there is a second one; it may sleep. */
void open_list(void) {
    if (turns != early) return;
    turns = 0;
    if (segment_records) return;       /* of a program that runs on it would be long */
    char *map = open_turns(STEP_BYTES) ? map_file(TURNS, 0, MOST_BYTES) : MAP_FAILED;
    if (map == MAP_FAILED) return;
    snprintf(map, HEADER, TURNS_MAGIC "%s", own_command());
    atomic_store(&room, (STEP_BYTES - HEADER) / sizeof *turns);
    header = map;
    turns = memcpy(map + HEADER, early, sizeof early);
}

/* By a thread without the turn; it may sleep. */
void extend_list(void) {
    uint64_t from = HEADER + atomic_load(&room) * sizeof *turns;
    if (!turns || turns == early || count + FEW < atomic_load(&room) || from >= MOST_BYTES
        || atomic_exchange(&is_growing, 1)) return;
    if (add_space(TURNS, from, STEP_BYTES)) atomic_fetch_add(&room, STEP_BYTES / sizeof *turns);
    atomic_store(&is_growing, 0);
}

static void add(uint64_t entry) {
    if (!turns) return;
    if (count < atomic_load(&room)) turns[count++] = entry;
    else if (turns != early) turns = 0; /* the list ends: no entry may be missing in it */
}

static void add_last(void) { if (runs) add(entry_of(runs, runs->kept)); }

/* When the recording has ended, so no turn begins. */
void close_list(void) {
    uint64_t sum = 0;
    add_last();
    if (is_replaying) end_replay("the recording ended");
    if (!header) return;
    for (uint64_t i = 0; i < count; i++) sum += ((uint64_t *)(header + HEADER))[i];
    size_t at = strlen(header);
    snprintf(header + at, HEADER - at, "whole %lx %lx\n", count, sum);
    cut_file(TURNS, HEADER + count * sizeof *turns);
    munmap(header, MOST_BYTES);
    header = 0;
    turns = 0;
}

void unlock_list(void) { if (header) munlock(header, MOST_BYTES); }

/* ---- the list that is followed ---- */
volatile int is_replaying;
/* the next entry is due[at]: the end of a turn that has begun or not, or what is unusual in it */
static const uint64_t *due;
static uint64_t due_count;
static volatile uint64_t at;
static uint64_t due_turns, done_turns;

static int reaches(const thread *t, uint64_t entry) {
    return !(entry & UNUSUAL) && steps_in_turns(t) >= steps_of_entry(entry);
}

/* For the reader of the record's header. */
static void note_number(const char *format, uint64_t number) {
    char line[80];
    snprintf(line, sizeof line, format, number);
    note_text(line);
}

/* Also where all of it was followed: then it says nothing. */
void end_replay(const char *why) {
    done_turns += at < due_count && runs && runs->number == thread_of_entry(due[at])
        && reaches(runs, due[at]);
    note_number("replayed %lu\n", done_turns);
    is_replaying = 0;
    if (done_turns < due_turns)
        tell("the replay is left after %lu of %lu turns, for %s", done_turns, due_turns, why);
}

static void move_on(void) {
    done_turns += !(due[at] & UNUSUAL);
    if (++at == due_count) end_replay("it ends");
}

/* Who alone may get the turn that nobody has, or that this holder has not given. */
uint32_t next_thread(const thread *holder) {
    uint64_t i = at;                   /* without the guard another thread may move it on */
    if (holder) i = i < due_count && reaches(holder, due[i]) ? i + 1 : due_count;
    return i < due_count ? thread_of_entry(due[i]) : THREAD_NUMBERS;
}

uint32_t due_thread(void) { return next_thread(0); }

int steps_to_go(const thread *t) {
    uint64_t i = at;
    while (i + 1 < due_count && due[i] & UNUSUAL) i++;
    uint64_t end = steps_of_entry(due[i]), steps = end > t->steps ? end - t->steps : 0;
    return steps < INT32_MAX ? (int)steps : INT32_MAX - 1;
}

int may_get_turn(const thread *t, const thread *holder) {
    return !is_replaying || holder == t || at >= due_count || next_thread(holder) == t->number;
}

void begin_turn(thread *t) {
    if (runs != t) add_last();
    runs = t;
    t->kept = t->steps;
    if (is_replaying && due_thread() != t->number) move_on();
}

void end_turn(thread *t) {
    t->kept = t->steps;
    if (is_replaying && reaches(t, due[at])) move_on();
}

/* Was it so when the list was written?  What is told of steps before was not met. */
int next_is_unusual(const thread *t) {
    while (is_replaying && due[at] & UNUSUAL && due_thread() == t->number
           && steps_of_entry(due[at]) <= t->steps) {
        int is_this = steps_of_entry(due[at]) == t->steps;
        move_on();
        if (is_this) return 1;
    }
    return 0;
}

void add_unusual(const thread *t) { add(entry_of(t, t->steps) | UNUSUAL); }

/* What the list has next of this thread, or `otherwise`. */
uint64_t next_value(const thread *t, uint64_t otherwise) {
    uint64_t flags = entry_of(t, VALUE) | UNUSUAL, low = at + 1 < due_count ? due[at] : 0;
    if (!is_replaying || (low & flags) != flags || low >> 48 != t->number) return otherwise;
    move_on();
    uint64_t high = due[at];
    move_on();
    return (low & UINT32_MAX) | high << 32;
}

void add_value(const thread *t, uint64_t value) {
    add(entry_of(t, VALUE | (value & UINT32_MAX)) | UNUSUAL);
    add(entry_of(t, VALUE | value >> 32) | UNUSUAL);
}

/* ---- begin ---- */
/* The words of a command line without the folder of the program, which may have moved. */
static const char *without_folder(const char *command) {
    const char *words = command + strcspn(command, " "), *name = words;
    while (name > command && name[-1] != '/') name--;
    return name;
}

static int is_for_this_program(const char *list) {
    const char *theirs = list + strlen(TURNS_MAGIC "command "), *ours = own_command() + strlen("command ");
    theirs = without_folder(theirs);
    ours = without_folder(ours);
    size_t length = strcspn(ours, "\n");
    return !strncmp(theirs, ours, length + 1);
}

static const char *mapped(const char *path, uint64_t *bytes) {
    struct stat status;
    int file = syscall(SYS_openat, AT_FDCWD, path, O_RDONLY | O_CLOEXEC | O_NONBLOCK, 0);
    int is_list = file >= 0 && !fstat(file, &status) && S_ISREG(status.st_mode) && status.st_size >= HEADER;
    void *map = is_list ? mmap(0, status.st_size, PROT_READ, MAP_PRIVATE, file, 0) : MAP_FAILED;
    if (file >= 0) syscall(SYS_close, file);
    if (map == MAP_FAILED) return 0;
    *bytes = status.st_size;
    return map;
}

/* Another process of the run may be meant: then this one says nothing. */
void begin_replay(const char *path) {
    uint64_t bytes;
    const char *list = mapped(path, &bytes);
    int is_list = list && memchr(list, 0, HEADER) && !strncmp(list, ANY_TURNS, strlen(ANY_TURNS));
    if (!is_list || strncmp(list, TURNS_MAGIC "command ", strlen(TURNS_MAGIC "command "))) {
        tell(is_list ? "%s is not followed: another version of the recorder wrote it"
                     : "%s is no list of turns (RUN.turns)", path);
        return;
    }
    due = (const uint64_t *)(list + HEADER);
    due_count = (bytes - HEADER) / sizeof *due;
    while (due_count && !due[due_count - 1]) due_count--;
    for (uint64_t i = 0; i < due_count; i++) due_turns += !(due[i] & UNUSUAL);
    is_replaying = due_count && is_for_this_program(list);
    if (is_replaying) note_number("replays %lu\n", due_turns);
}

/* In a process made by fork: the list, and the replay, are its parent's. */
void leave_list(thread *t) {
    header = 0;
    turns = 0;
    is_replaying = 0;
    runs = t;
}
