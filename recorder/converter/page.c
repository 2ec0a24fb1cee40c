/* Which of the run's events a trace has: all; or a part, for a page, around races that shb places --list has
   found in that of the run.

   The file of races has a line for each of them: the numbers of its two events in the run's trace, and its
   variable. Of the events around a race's accesses, and between them unless they lie far apart, the page's
   trace has the accesses of variables in races, and all locks, forks and joins; of those between such spans
   each thread's first one, forks and joins. A span begins with an acquire for each lock that is held there,
   and what is held at its end is released. Events that the page's trace lacks are left out, and none is made
   up.

   The file of uses has of the whole run how often each variable in a race is used at each location in each
   way, and sums of that by threads, call stacks and locks; and which events of the page's trace those of the
   races are. Lines, with tabs between their fields, behind USES_BEGIN:
       use WORD VARIABLE LOCAL LOCATION SUM..
           WORD is r, w, l (loaded atomically), a (written atomically), f (freed), or R or W, of an access of
           more than eight bytes. A SUM is three fields, of COUNT accesses:
           by COUNT THREAD          the thread makes
           bare COUNT STACK         hold no lock, and have this stack: a number of the file of stacks, or 0
           held COUNT STACK         hold locks, and have it; "many" in its place: over 64, with no sum of each
           under COUNT LOCK         hold the lock; "reading" in its place: for reading
       seen VARIABLE WRITTEN READ
           in the run a read at the location READ saw what another thread wrote at the location WRITTEN
       event NUMBER-IN-PAGE NUMBER-IN-RUN
       part NUMBER-IN-PAGE          between this event and the one before it some may be missing
       repeated NUMBER-IN-PAGE [once]
           this access stands for others of its kind, which are omitted: earlier ones in a phase of one
           owner; of a read also later ones, before the thread could order another or the variable is
           written, or behind its last write. `once`: the thread released nothing before at the place of
           its last release
       sets                         of locks were more than the recorder tells apart
       events COUNT-IN-PAGE         at the end */
#include "converter.h"

#define USES_BEGIN "shb-uses 3\n"
enum { BEFORE = 500, BEHIND = 16, SHORT_RUN = 20000, FAR_APART = 20000 };   /* events */
enum { MOST_COUNTED = 64 };            /* locks */
typedef struct { u64 first, last; } span;

/* What is written: the events in these spans, and of accesses those of variables with these names, or
   of all. */
typedef struct {
    VECTOR(span) spans;
    map names;
    map blocks;                        /* numbers: each block of the heap that has such a variable */
    u64 at;                            /* the span that it is in, or that comes next */
} sink;
static span whole_run = {1, -1};
static sink run = {.spans = {&whole_run, 1, 1}}, page, *into = &run;
u64 span_last = -1;
static VECTOR(u64) wanted;
static u64 wanted_at;
static FILE *uses_file;
static const char *uses_path;

/* ---- the races ---- */
/* One whose accesses lie far apart has two spans. What stands behind the last "!" may be the thread of an
   atomic's writer. */
static void add_race(u64 first, u64 second, char *variable) {
    char *sign = strrchr(variable, '!'), *block = strrchr(variable, '#');
    int is_apart = second - first > FAR_APART || second - first > most.events;
    *PUSH(page.spans) = (span){first, is_apart ? first : second};
    if (is_apart) *PUSH(page.spans) = (span){second, second};
    *PUSH(wanted) = first;
    *PUSH(wanted) = second;
    map_text(&page.names, variable);
    if (block) map_adds(&page.blocks, strtoull(block + 1, 0, 10), 0);
    if (!sign) return;
    *sign = 0;
    map_text(&page.names, variable);
}

/* The spans of races that are near each other are one; it begins and ends with the run where that is short.
   One of a single access doesn't. */
static void join_spans(u64 run_events) {
    u64 count = 0;
    SORT(page.spans, by_number);
    EACH(s, page.spans) {
        u64 from_begin = s->first < s->last ? SHORT_RUN : BEFORE;
        span next = {s->first > from_begin ? s->first - BEFORE : 1, s->last + BEHIND};
        span *before = count ? &page.spans.at[count - 1] : 0;
        if (from_begin == SHORT_RUN && next.last < SHORT_RUN) next.last = SHORT_RUN;
        if (next.last > run_events) next.last = run_events;
        if (!before || next.first > before->last + 1) page.spans.at[count++] = next;
        else if (before->last < next.last) before->last = next.last;
    }
    page.spans.count = count;
}

int read_races(const char *path) {
    static FILE *file;
    static char *line;
    static size_t capacity;
    if (!file && !(file = fopen(path, "r"))) die("cannot open %s: %s", path, strerror(errno));
    for (ssize_t length; (length = getline(&line, &capacity, file)) > 0;) {
        char *rest;
        if (line[length - 1] == '\n') line[length - 1] = 0;
        if (is_coarse && !strcmp(line, "again")) {
            if (page.names.count) refine(&page.names);
            else is_coarse = 0;
            page = (sink){0};
            wanted.count = 0;
            return 1;
        }
        u64 first = strtoull(line, &rest, 10), second = strtoull(rest, &rest, 10);
        if (!first || first >= second || *rest != ' ' || !rest[1]) die("%s: this is no race: %s", path, line);
        add_race(first, second, rest + 1);
    }
    if (ferror(file)) cannot_read(path);
    return 0;
}

int begin_page(u64 run_events) {
    if (!page.spans.count) return 0;
    join_spans(run_events);
    SORT(wanted, by_number);
    into = &page;
    return 1;
}

void begin_spans(void) {
    into->at = 0;
    span_last = is_for_page() ? 0 : -1;
}

int is_block_in_race(u32 number) { return is_for_page() && map_find(&page.blocks, number, 0); }

/* Is a piece's variable in a race? Each is looked up once. */
static int is_racing(u32 number) {
    static VECTOR(uint8_t) answers;
    enum { NO = 1, YES };
    while (answers.count <= number) *PUSH(answers) = 0;
    if (answers.at[number]) return answers.at[number] == YES;
    const piece *p = piece_of(number);
    block *b = block_of(p->block);
    int may_be = !b || b->stack || map_find(&page.blocks, p->block, 0);
    if (!may_be) b->named = 1;         /* as if its name had been made: the file of stacks has it */
    part name = may_be ? piece_name(number) : (part){0};
    answers.at[number] = may_be && map_find_bytes(&page.names, name.at, name.length) ? YES : NO;
    return answers.at[number] == YES;
}

int is_for_page(void) { return into == &page; }

int takes_piece(u32 number) { return !into->names.count || is_racing(number); }

/* ---- the spans ---- */
int is_over(void) { return into->at == into->spans.count; }

/* A pass that counts uses goes on. */
void end_trace(const char *why) {
    into->at = into->spans.count;
    span_last = 0;
    if (!uses_file) cut_reason = why;
}

void step_trace(u64 number) {
    if (number <= span_last || is_over()) return;
    if (span_last) {
        span_last = 0;
        into->at++;
    } else if (number >= into->spans.at[into->at].first) span_last = into->spans.at[into->at].last;
}

void note_written(u64 number, u64 in_page) {
    if (!uses_file) return;
    while (wanted_at < wanted.count && wanted.at[wanted_at] < number) wanted_at++;
    if (wanted_at < wanted.count && wanted.at[wanted_at] == number)
        fprintf(uses_file, "event\t%lu\t%lu\n", in_page, number);
}

void note_repeated(u32 t, u64 in_page) {
    if (uses_file) fprintf(uses_file, "repeated\t%lu%s\n", in_page, threads[t].gave_once ? "\tonce" : "");
}

void note_part(u64 in_page) {
    static u64 last;
    if (uses_file && in_page != last) fprintf(uses_file, "part\t%lu\n", in_page + 1);
    last = in_page;
}

/* ---- uses ---- */
/* A sum is of a thread, a stack or a lock's key; `first`, `last` and `next` chain those of a use. */
enum sum_kind { BY, BARE, HELD, MANY, UNDER, READING };
typedef struct { u64 of, count; u32 kind, next; } sum;
typedef struct {
    u64 own;
    const char *local;
    u32 piece, first, last;
    u32 recent[READING + 1];           /* of each kind that which was added to last */
    char word;
} use;
static INTERNED(sum) sums;
static INTERNED(use) uses;

static void add_sum(u32 number, enum sum_kind kind, u64 of) {
    use *u = &uses.at[number - 1];
    u32 at = u->recent[kind];
    if (!at || sums.at[at - 1].of != of) at = u->recent[kind] = INTERN(sums, (u64)number << 32 | kind, of);
    if (sums.at[at - 1].count++) return;
    sums.at[at - 1] = (sum){of, 1, kind, 0};
    *(u->last ? &sums.at[u->last - 1].next : &u->first) = at;
    u->last = at;
}

/* The stack of an access, and the locks of the program that its thread holds, each once. */
static void add_locks(u32 number, u32 t, u32 stack) {
    u32 count = threads[t].lock_count;
    add_sum(number, !count ? BARE : count > MOST_COUNTED ? MANY : HELD, stack);
    for (const hold *h = first_hold(t); h && count <= MOST_COUNTED; h = hold_behind(h))
        if (!h->around && !(h->key & ONLY_ORDERS))
            add_sum(number, is_for_reading(h->key) ? READING : UNDER, h->key);
}

void count_use(u32 t, u64 caller, u64 own, u32 number, char word) {
    static map locals;
    if (!uses_file) return;
    const piece *p = piece_of(number);
    const char *local = local_now(p->at, block_of(p->block));
    u32 in = *local ? map_text(&locals, local) : 0,
        at = INTERN(uses, (u64)site_of(own) << 32 | number, (u64)word << 32 | in);
    if (!uses.at[at - 1].word)
        uses.at[at - 1] = (use){.own = own, .local = local, .piece = number, .word = word};
    add_sum(at, BY, t);
    add_locks(at, t, stack_at(t, caller));
}

/* ---- which writes were read ---- */
/* its thread plus one; where it was read last */
typedef struct { u64 own, reader; u32 thread; } last_write;
typedef struct { u64 written, read; u32 piece, writer; } sight;
/* by pieces, each with an atomic's writer or NOBODY */
static INTERNED(last_write) last_writes;
static INTERNED(sight) sights;

void note_sight(u32 t, u64 own, u32 number, u32 writer, int writes) {
    static map places;
    if (!uses_file) return;
    last_write *last = ENTRY(last_writes, number, writer);
    if (writes) *last = (last_write){own, 0, t + 1};
    if (writes || !last->thread || last->thread == t + 1 || last->reader == own) return;
    last->reader = own;
    *ENTRY(sights, map_number(&places, last->own, own),
           (u64)writer << 32 | number) = (sight){last->own, own, number, writer};
}

static void write_sight(const sight *s) {
    part name = piece_name(s->piece), written = place_of(s->written),
        read = place_of(s->read);
    int is_atomic = s->writer != NOBODY;
    fprintf(uses_file, "seen\t%.*s%s%s\t%.*s\t%.*s\n", TEXT(name), is_atomic ? "!" : "",
            is_atomic ? thread_name(s->writer) : "",
            TEXT(written), TEXT(read));
}

static void write_sum(const sum *s) {
    static const char *const words[] = {"by", "bare", "held", "many", "under", "reading"};
    fprintf(uses_file, "\t%s\t%lu\t", words[s->kind], s->count);
    part name = s->kind >= UNDER ? name_of_held(s->of) : (part){0};
    if (s->kind == BY) fputs(thread_name(s->of), uses_file);
    else if (s->kind >= UNDER) fwrite_unlocked(name.at, 1, name.length, uses_file);
    else {
        fprintf(uses_file, "%lu", s->of);
        keep_stack(s->of);
    }
}

static void write_use(const use *u) {
    part name = piece_name(u->piece), place = place_of(u->own);
    fprintf(uses_file, "use\t%c\t%.*s\t", u->word, TEXT(name));
    write_own_name(uses_file, u->local);
    fprintf(uses_file, "\t%.*s", TEXT(place));
    for (u32 k = u->first; k; k = sums.at[k - 1].next) write_sum(&sums.at[k - 1]);
    fputc('\n', uses_file);
}

void open_uses(const char *path) {
    uses_path = path;
    uses_file = fopen(path, "w");
    if (!uses_file || fputs(USES_BEGIN, uses_file) < 0) cannot_write(path);
}

void end_uses(void) {
    if (!uses_file) return;
    EACH_OF(u, uses.at, uses.numbers.count) write_use(u);
    EACH_OF(s, sights.at, sights.numbers.count) write_sight(s);
    if (!are_sets_apart()) fputs("sets\n", uses_file);
    fprintf(uses_file, "events\t%lu\n", written);
    end_file(uses_file, uses_path);
}
