/* shb-std: turns a record of the recorder into an STD trace; docs/RECORDER.md says what becomes what.

   Passes over the record.  The first meets the blocks of memory, finds those that one thread alone uses, and
   cuts the others into pieces; the second cuts by what came before another thread used a block; the third
   finds which pieces and objects are shared, and who reads what; the fourth writes the events.  With --only
   and races in its file another one writes those that a page of these needs, and counts. */
#include "converter.h"
#include <getopt.h>
#include <malloc.h>
#include <unistd.h>

#define MAX_EXTRA_STEPS (1ull << 28)   /* in a pass: seconds */

static int is_of_stack(enum operation operation) { return operation >= OP_FRAME && operation <= OP_CONTEXT; }
static int is_for_object(enum operation operation) {
    return is_atomic(operation) || (operation >= OP_LOCK_INIT && operation < OP_USE);
}

static void meet_record(const entry *e) {
    find_users(e);
    if (is_plain(e->operation)) return;
    if (e->operation == OP_FREE) end_block(e->address, e->caller);
    if (is_of_stack(e->operation)) note_call(e);
    if (e->operation == OP_NAME || is_of_stack(e->operation)) return;
    if (e->operation == OP_FENCE) has_fences = 1;
    note_caller_of(e);
}

static void meet_name(const entry *e) {
    char piece[NAME_PIECE + 1];
    piece_of_name(*e->its, piece);
    give_name(e->thread, piece, size_of(e) == 0);
}

/* Of who could give or take order by a record. */
static void end_regions(const entry *e) {
    int is_of_two = e->operation == OP_FORK || e->operation == OP_JOIN;
    if (is_of_two || e->operation == OP_FENCE || is_for_object(e->operation)) end_region(e->thread);
    if (is_of_two) end_region(other_thread_of(e));
}

static void find_sharing(const entry *e) {
    if (e->operation == OP_FRAME || e->operation == OP_CONTEXT || e->is_late) name_by_own(e->thread, e);
    share_pieces(e);
    if (!is_plain(e->operation)) {
        if (e->operation == OP_NAME) meet_name(e);
        if (e->operation == OP_START) name_thread(e->thread, e->caller);
        end_regions(e);
        if (e->operation == OP_FENCE) share_fence(e);
        if (is_for_object(e->operation)) share_object(e);
    }
    if (!is_of_stack(e->operation) && means_access(e)) note_record(e);
}

static void write_fork(u32 t, u32 child, u64 caller) {
    if (!meets_thread(child)) {
        end_trace(most.before_thread);
        return;
    }
    event(t, "fork", name_of_thread(child), caller);
    threads[child].forked_by = t + 1;
    threads[child].created_at = stack_at(t, caller);
}

/* Who joins a thread comes after who forked it only by an event in between. */
static void write_join(u32 t, u32 child, u64 caller) {
    u32 by = threads[child].forked_by;
    if (!has_events(child) && by && by != t + 1) event(child, "begin", name_of_thread(child), caller);
    meets_thread(child);
    event(t, "join", name_of_thread(child), caller);
}

static void write_events(const entry *e) {
    meet_call(e);
    if (is_of_stack(e->operation)) return;
    if (!is_plain(e->operation)) end_regions(e);
    if (is_plain(e->operation)) access_events(e);
    else if (e->operation == OP_FORK) write_fork(e->thread, other_thread_of(e), e->caller);
    else if (e->operation == OP_JOIN) write_join(e->thread, other_thread_of(e), e->caller);
    else if (e->operation == OP_FENCE) fence_events(e);
    else if (e->operation == OP_CRASH) note_crash(e);
    else if (is_for_object(e->operation)) object_events(e);
    else {
        u64 before = written;
        access_events(e);
        if (e->operation == OP_FREE) note_free(before + 1, written);
        if (e->operation == OP_FREE) end_block(e->address, own_place(e->thread, e->caller));
    }
    if (means_access(e)) note_record(e);
}

static void name_block(block *b, const entry *e, const block *earlier) {
    b->node = stack_at(e->thread, e->caller);
    b->caller = own_place(e->thread, e->caller);
    if (earlier && is_block_in_race(block_number(b))) note_again(e->thread, b, earlier);
}

/* A record is cut if no pass would end soon, or of so many threads: its beginning is a record too. The pass
   for a page ends where that of the run's trace did. */
static const char *shortened;
static u32 record_threads;

/* One step with each record that is of use. Inline, for a step that is called by its address costs more than
   most do. */
ALWAYS_INLINE void pass(void (*step)(const entry *), int is_first) {
    begin_memory_pass();
    begin_thread_pass();
    for (u64 i = 0, end = 0; i < record_count && !cut_reason; i++) {
        if (i == end) end = next_records(i);
        if (!is_first && is_passed_over(i)) continue;
        const entry e = entry_at(i);
        enum operation operation = e.operation;
        block *b = 0, *earlier = 0;
        if (!is_plain(operation)) {
            if (operation == OP_SIZE) continue;
            if (operation == OP_FORK && !meet_fork(&e)) {
                shortened = "before a thread too many: shb-std takes 1,048,576";
                record_count = i;
                break;
            }
            if (operation == OP_START) meet_start(&e);
            if (operation == OP_ALLOC) earlier = block_at(e.address);
            if (operation == OP_START || operation == OP_ALLOC) b = meet_block(&e);
        }
        step(&e);
        if (b && step == write_events && operation == OP_ALLOC) name_block(b, &e, earlier);
        if (extra_steps <= MAX_EXTRA_STEPS || is_for_page()) continue;
        shortened = "where long ranges, deep stacks or many threads take too much work";
        record_count = i;
    }
}

/* The states of what the passes meet are as they were before the first that wrote a trace. */
static void write_trace(int has_stacks) {
    forget_thread_states();
    forget_states();
    forget_phases();
    begin_visits();
    begin_spans();
    begin_calls(has_stacks);
    begin_events();
    pass(write_events, 0);
    write_lines();
    if (fflush(stdout) || ferror(stdout)) die("cannot write the trace: %s", strerror(errno));
    end_uses();
    end_stacks();
}

static const char help[] =
    "Usage: shb-std [OPTION].. RECORD > TRACE\n"
    "  or:  shb-std --only RACES [OPTION].. RECORD > TRACE\n"
    "  or:  shb-std --list [--only RACES --page TRACE] [OPTION].. RECORD > TRACE\n"
    "\n"
    "Turns a record of the recorder into an STD trace.\n"
    "\n"
    "The trace is cut at the most events and threads that shb takes.\n"
    "\n"
    "Options:\n"
    "  --list         the trace of the whole run, for 'shb places --list'\n"
    "  --only RACES   write a part of the trace, for a page: around the races of this\n"
    "                 file, the accesses of their variables, and locks, forks and\n"
    "                 joins. It has a line for each race: I J VARIABLE, with the\n"
    "                 numbers of its events in the trace of --list. With --list both\n"
    "                 are written, and RACES is read, from a FIFO or standard input,\n"
    "                 when the first is; if it is empty, only the first is written\n"
    "  --page TRACE   write the trace of --only to this file\n"
    "  --finer D      with --list and --page: in the trace of --list variables that\n"
    "                 are used alike are one, with '~' at the end of its name. If\n"
    "                 RACES has a line 'again', the trace is written once more, to\n"
    "                 the open descriptor D. May be given twice: in the first one's\n"
    "                 trace those of the races before that line are apart, or all if\n"
    "                 there is none; in the last one's all. Where all are apart,\n"
    "                 further descriptors are closed at once\n"
    "  --uses FILE    with --only, write how often each thread used these variables\n"
    "                 in the whole run, where and under which locks, to this file\n"
    "  --stacks FILE  write the call stack of each event to this file, where threads\n"
    "                 were created and blocks allocated, and which locals the\n"
    "                 variables on stacks are; with --only, of its events\n"
    "  --blocks FILE  RECORD is a segment (SHB_SEGMENT), and FILE has the blocks of\n"
    "                 memory that are there when it begins\n"
    "  --left FILE    write the blocks that are there at its end to this file\n"
    "  -n EVENTS      at most so many events (4194304)\n"
    "  -a             also what can't conflict; with --list each block that one\n"
    "                 thread alone uses is one variable\n"
    "  --strip DIR    files below this folder are named by their paths from it; else\n"
    "                 a file is named by the end of its path that no other file of\n"
    "                 the program has\n"
    "  --version      print the version and exit\n"
    "  -h, --help     print this text and exit\n"
    "\n"
    "Exit status: 0; 1 the trace was written, and isn't the whole run; 2 it failed;\n"
    "3 wrong command line.\n" VERSION_LINE;

enum file { STACKS = 1, STRIP, ONLY, PAGE, USES, BLOCKS, LEFT, FILES };
static const char *paths[FILES];       /* of the options that have one; or null */
enum { MOST_FINER = 2 };
static int for_list, finer[MOST_FINER], finer_count;
static u64 event_limit = SHB_EVENTS;

static void bad_words(const char *which, const char *why) {
    fprintf(stderr, "shb-std: %s%s; shb-std --help says more\n", which, why);
    exit(BAD_WORDS);
}

static void read_words(int count, char **words) {
    enum { ARG = required_argument };
    static const struct option options[] = {
        {"stacks", ARG, 0, STACKS}, {"strip", ARG, 0, STRIP}, {"only", ARG, 0, ONLY},
        {"page", ARG, 0, PAGE}, {"uses", ARG, 0, USES}, {"blocks", ARG, 0, BLOCKS}, {"left", ARG, 0, LEFT},
        {"finer", ARG, 0, 'f'},
        {"list", 0, &for_list, 1}, {"version", 0, 0, 'v'}, {"help", 0, 0, 'h'}, {0}};
    opterr = 0;
    for (int c; (c = getopt_long(count, words, "ahn:", options, 0)) >= 0;)
        if (c == 'h' || c == 'v') {
            fputs(c == 'h' ? help : "shb-std " VERSION "\n", stdout);
            exit(0);
        } else if (c && c < FILES) paths[c] = optarg;
        else if (c == 'f' && finer_count < MOST_FINER) finer[finer_count++] = strtol(optarg, 0, 10);
        else if (c == 'a') whole_trace = 1;
        else if (c == 'n') {
            if (!(event_limit = strtoull(optarg, 0, 10))) bad_words(optarg, " isn't a number of events");
        } else if (c) bad_words(words[optind - 1], " isn't an option, or has no value");
    if (optind == count) bad_words("no RECORD is named", "");
    if (optind + 1 < count) bad_words(words[optind + 1], " is one word too many");
    if (paths[USES] && !paths[ONLY]) bad_words("--uses", " needs --only");
    if (paths[PAGE] && !paths[ONLY]) bad_words("--page", " needs --only");
    if (for_list && paths[ONLY] && !paths[PAGE]) bad_words("--list", " with --only needs --page");
    is_coarse = finer_count != 0;
    cuts_all = whole_trace && !for_list;
    if (is_coarse && !(for_list && paths[PAGE])) bad_words("--finer", " needs --list and --page");
}

static void write_to(const char *path) {
    if (!freopen(path, "w", stdout)) cannot_write(path);
}

/* In a pipe with room this process and shb places --list give way to each other less often. */
static void write_run(void) {
    is_unwritten = !for_list && paths[ONLY];
    if (for_list || is_unwritten) most = LIMITS_OF_LIST;
    else most.events = event_limit;
    /* bytes, the most that the system gives */
    if (for_list) fcntl(fileno(stdout), F_SETPIPE_SZ, 1 << 20);
    write_trace(!for_list && !is_unwritten);
    is_unwritten = 0;
}

/* The run's trace, and finer ones as long as they are asked for; each ends when the next one begins. Where it
   has no bundle the descriptors of further ones are closed before. */
static void write_runs(void) {
    for (int k = 0;; k++) {
        is_coarse = is_coarse && k < finer_count;
        for (int rest = k; !is_coarse && rest < finer_count; rest++) close(finer[rest]);
        write_run();
        if (!is_coarse) return;
        if (dup2(finer[k], STDOUT_FILENO) < 0 || close(finer[k])) die("cannot write a finer trace");
        if (!read_races(paths[ONLY])) return;
    }
}

/* A part of the run's trace, which has so many events. */
static void write_page(u64 run_events) {
    most = LIMITS_OF_LIST;
    most.events = event_limit;
    read_races(paths[ONLY]);
    if (!begin_page(run_events)) return;
    if (paths[USES]) open_uses(paths[USES]);
    write_trace(1);
}

int main(int count, char **words) {
    mallopt(M_MMAP_THRESHOLD, 1 << 20);    /* for good: else long arrays are copied when they grow */
    read_words(count, words);
    open_record(words[optind]);
    if (paths[STRIP]) strip_folder(paths[STRIP]);
    if (paths[BLOCKS]) carry_blocks(paths[BLOCKS]);
    if (paths[STACKS]) open_stacks(paths[STACKS]);
    pass(meet_record, 1);
    record_threads = threads_met();
    find_earlier_cuts();
    find_places();
    pass(find_sharing, 0);
    is_coarse = is_coarse && form_bundles();
    write_runs();
    const char *cut = for_list || !paths[ONLY] ? cut_reason : 0;
    u64 run_events = events;
    if (paths[PAGE]) write_to(paths[PAGE]);
    if (paths[ONLY]) write_page(run_events);
    if (paths[LEFT]) write_blocks(paths[LEFT]);
    fprintf(stderr, "shb-std: %lu records, %u threads, %lu events\n", entry_count, record_threads,
            run_events);
    say_crash();
    if (!cut) cut = shortened;
    if (recording_cut) fprintf(stderr, "shb-std: the recording is not the whole run: %s\n", recording_cut);
    if (cut) fprintf(stderr, "shb-std: the trace is cut %s\n", cut);
    return cut || recording_cut ? NOT_WHOLE : 0;
}
