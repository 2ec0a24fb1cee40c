/* module-reader: tells shb-std what a module's symbols and debug information say, as libdw of the
   elfutils reads them, and shb-record of what kind it is, and what it calls.

       module-reader PATH [kind|calls]

   A module may be any file, made to take memory or time without end, or to break libdw. So this is a process
   of its own for each module, with limits of both; it opens regular files alone, and what it answers is
   checked by who asks. */
#include "debug.h"
#include <signal.h>
#include <sys/prctl.h>
#include <sys/resource.h>
#include <unistd.h>

/* of processor time; of memory so many times the module's size, and this: */
enum { SECONDS = 120, TIMES = 16 };
#define BYTES (512ul << 20)

/* libdw opens by this whatever path a module has in it, to read. A device or FIFO may have no end. */
int open(const char *path, int flags, ...) {
    struct stat status;
    int f = openat(AT_FDCWD, path, O_RDONLY | O_NONBLOCK | O_CLOEXEC);
    if (f < 0 || (!fstat(f, &status) && S_ISREG(status.st_mode))) return f;
    close(f);
    errno = EACCES;
    return -1;
}
int open64(const char *path, int flags, ...) __attribute__((alias("open")));

/* Where it is asked for a signal, that comes before the end. */
static void limit(int resource, u64 most, u64 end) {
    struct rlimit limits;
    if (getrlimit(resource, &limits)) return;
    if (limits.rlim_cur > most) limits.rlim_cur = most;
    if (limits.rlim_max > end) limits.rlim_max = end;
    setrlimit(resource, &limits);
}

/* Memory beside what it has when it begins; beside a file with holes, which may be of any size, no more than
   the machine has. */
static void limit_itself(const char *path) {
    struct stat status;
    u64 pages = 0, page = sysconf(_SC_PAGESIZE), all = sysconf(_SC_PHYS_PAGES) * page,
        size = stat(path, &status) ? 0 : status.st_size;
    FILE *own = fopen("/proc/self/statm", "r");
    if (!own || fscanf(own, "%lu", &pages) != 1) pages = 0;
    if (own) fclose(own);
    u64 bytes = pages * page + BYTES + (size < all / TIMES ? TIMES * size : size + all);
    limit(RLIMIT_AS, bytes, bytes);
    limit(RLIMIT_CPU, SECONDS, SECONDS + 1);
    limit(RLIMIT_CORE, 0, 0);
    prctl(PR_SET_PDEATHSIG, SIGKILL);
}

static void answer(u64 one, u64 two, const char *first, const char *second) {
    row r = {one, two, strnlen(first, MOST_TEXT), strnlen(second, MOST_TEXT)};
    fwrite(&r, sizeof r, 1, stdout);
    fwrite(first, 1, r.first, stdout);
    fwrite(second, 1, r.second, stdout);
}

static void answer_symbols(debug *d, u64 page) {
    u64 last = page + (SYMBOL_PAGE - 1);
    const symbol *s;
    for (u64 at = page; (s = symbol_from(d, at)) && s->at <= last; at = s->at + s->size) {
        answer(s->at, s->size << SYMBOL_FLAGS | (s->is_twice ? SYMBOL_IS_TWICE : 0), s->name, "");
        if (s->size > last - s->at) return;
    }
}

static void answer_frames(debug *d, const u64 *addresses, u64 count) {
    debug_frame frames[MOST_INLINED];
    for (u64 k = 0; k < count; k++) {
        int found = frames_at(d, addresses[k], frames, MOST_INLINED);
        for (int n = 0; n < found; n++) {
            const debug_frame *f = &frames[n];
            answer(k, f->path && f->line > 0 ? f->line : 0, f->function ? f->function : "",
                   f->path ? f->path : "");
            free(frames[n].function);
        }
    }
}

static void answer_members(debug *d, u64 address, const u64 *parts, u64 count) {
    for (u64 k = 0; k + 1 < count; k += 2) {
        char name[NAME_BYTES] = "";
        int is_other = add_member(d, address, parts[k], parts[k + 1], name, sizeof name);
        answer(0, is_other, name, "");
    }
}

static void give_source(const char *path) { answer(0, 0, path, ""); }

static void answer_request(debug *d, const request *r, const u64 *numbers) {
    char name[NAME_BYTES] = "";
    const char *text;
    size_t length;
    int is_other = 0;
    object_in_block object = {.is_other = 0};
    const place_in_block block = {numbers[0], numbers[1], numbers[2], numbers[3]};
    switch ((enum request_kind)r->kind) {
    case ASK_SYMBOLS: answer_symbols(d, numbers[0]); break;
    case ASK_VARIABLE: if (is_variable(d, (const char *)numbers)) answer(0, 0, "", ""); break;
    case ASK_FRAMES: answer_frames(d, numbers, r->count); break;
    case ASK_SOURCES: each_source(d, give_source); break;
    case ASK_OWN_LINES: if (has_section(own_file(d), ".debug_line")) answer(0, 0, "", ""); break;
    case ASK_UNREAD: if ((text = why_unread(d))) answer(0, 0, text, ""); break;
    case ASK_MEMBER: answer_members(d, numbers[0], numbers + 1, r->count - 1); break;
    case ASK_LOCAL:
        text = add_local(d, (place_of_local){numbers[0], numbers[1], numbers[2], numbers[3]}, name,
                         sizeof name);
        if (text) answer(0, 0, name, text);
        break;
    case ASK_BLOCK:
        length = add_in_block(d, block, name, sizeof name, &is_other);
        if (length || has_type(d, block)) answer(length | (u64)is_other << 32, 0, name, "");
        break;
    case ASK_USE:
        if (!object_by_use(d, block, numbers[4], &object) || (object.begin | object.size) >> 32) break;
        length = add_by_use(d, &object, numbers[5], numbers[6], name, sizeof name);
        answer(length | (u64)object.is_other << 32, object.begin << 32 | object.size, name, "");
    }
}

static void answer_requests(debug *d) {
    static u64 numbers[MOST_NUMBERS + 1];  /* the last one ends a text */
    static const row end = {.first = END_ROW};
    request r;
    while (fread(&r, sizeof r, 1, stdin) == 1 && r.count <= MOST_NUMBERS
           && fread(numbers, sizeof *numbers, r.count, stdin) == r.count) {
        answer_request(d, &r, numbers);
        fwrite(&end, sizeof end, 1, stdout);
        if (fflush(stdout)) break;
    }
}

int main(int count, char **words) {
    if (count != 2 && count != 3) return 3;
    limit_itself(words[1]);
    unsetenv("DEBUGINFOD_URLS");           /* no server is asked for debug information */
    debug *d = open_debug(words[1]);
    if (count == 2) answer_requests(d);
    else if (!strcmp(words[2], "kind")) tell_kind(d);
    else tell_calls(d);
    fflush(stdout);
    _exit(0);
}
