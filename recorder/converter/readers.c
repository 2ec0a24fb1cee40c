/* The readers of modules: a process for each module that is asked of, with limits of its own, for a module
   may be any file. What one answers is checked here; one that ends, or answers what can't be, is asked no
   more. */
#include "readers.h"
#include <signal.h>
#include <spawn.h>
#include <sys/socket.h>
#include <sys/wait.h>
#include <time.h>
#include <unistd.h>

enum { MOST_SECONDS = 360 };           /* of processor time, of all readers */
#define MOST_TAKEN (1ull << 31)        /* bytes of all answers of all readers */
/* bytes of memory, of all readers before one is asked */
#define MOST_HELD (sysconf(_SC_PHYS_PAGES) / 2 * sysconf(_SC_PAGESIZE))

struct reader {
    reader *next;
    const char *path;
    pid_t process;
    double seconds;                    /* of processor time that are counted */
    u64 held;                          /* bytes of memory, when another was asked after it */
    FILE *answers;                     /* from its socket; null: it isn't asked */
    char first[MOST_TEXT + 1], second[MOST_TEXT + 1];
};

static reader *readers;

/* The program beside this one. */
static const char *program(void) {
    static const char name[] = "module-reader";
    static char path[4096 + sizeof name] = "/";
    ssize_t length = path[1] ? 0 : readlink("/proc/self/exe", path, 4096);
    if (length > 0) path[length] = 0;
    strcpy(strrchr(path, '/') + 1, name);
    return path;
}

static int spawn(reader *r, int socket) {
    const char *const words[] = {program(), r->path, 0};
    posix_spawn_file_actions_t files;
    if (posix_spawn_file_actions_init(&files)) die("out of memory");
    posix_spawn_file_actions_adddup2(&files, socket, 0);
    posix_spawn_file_actions_adddup2(&files, socket, 1);
    posix_spawn_file_actions_addopen(&files, 2, "/dev/null", O_WRONLY, 0);
    posix_spawn_file_actions_addclosefrom_np(&files, 3);
    int failed = posix_spawn(&r->process, *words, &files, 0, (char *const *)words, environ);
    posix_spawn_file_actions_destroy(&files);
    return !failed;
}

/* Returns how it ended. One that has ended by itself isn't touched by the signal. */
static int stop(reader *r) {
    int status = 0;
    fclose(r->answers);
    r->answers = 0;
    if (r->process) kill(r->process, SIGKILL);
    if (r->process) waitpid(r->process, &status, 0);
    return status;
}

/* None outlives this process. */
static void stop_all(void) {
    for (reader *r = readers; r; r = r->next)
        if (r->answers) stop(r);
}

/* A file that is there twice, as a library that was loaded again, has one. None asks a server for
   debug information. */
reader *open_reader(const char *path) {
    for (reader *r = readers; r; r = r->next)
        if (!strcmp(r->path, path)) return r;
    reader *r = zeroed(1, sizeof *r);
    int ends[2];
    if (!readers) {
        atexit(stop_all);
        unsetenv("DEBUGINFOD_URLS");
    }
    r->next = readers;
    readers = r;
    r->path = path;
    if (!strchr(path, '/')) return r;      /* it is no file, as the kernel's own library */
    if (socketpair(AF_UNIX, SOCK_STREAM | SOCK_CLOEXEC, 0, ends))
        die("cannot make a socket: %s", strerror(errno));
    if (!(r->answers = fdopen(ends[0], "r"))) die("out of memory");
    if (!spawn(r, ends[1])) r->process = 0;
    close(ends[1]);
    return r;
}

#define UNREAD "its debug information can't be read: "
static const char wrong_answer[] = "its reader gave a wrong answer";

/* A status of 127 is the loader's, where a library is missing. */
static const char *why_ended(const reader *r, int status) {
    enum { NOT_THERE = 127 };
    if (!r->process || (WIFEXITED(status) && WEXITSTATUS(status) == NOT_THERE)) return 0;
    if (WIFEXITED(status)) return UNREAD "it takes too much memory";
    if (WTERMSIG(status) == SIGKILL) return UNREAD "its reader was ended by the system, perhaps for memory";
    return WTERMSIG(status) == SIGXCPU ? UNREAD "it takes too much time" : UNREAD "its reader crashed";
}

/* It is ended for a reason, or ended by itself. */
static void end_reader(reader *r, const char *why) {
    static int is_said;
    if (!r->answers) return;
    int status = stop(r);
    if (!why) why = why_ended(r, status);
    if (why) fprintf(stderr, "shb-std: %s: names and places may be addresses, for %s\n", r->path, why);
    else if (!is_said++)
        fprintf(stderr, "shb-std: names and places are addresses, for %s can't be run; it needs libdw.so.1 "
                        "of elfutils\n", program());
}

/* Have all readers together taken no more time than they may? */
static int is_in_time(reader *r) {
    static double all;
    clockid_t clock;
    struct timespec taken;
    if (!r->process || clock_getcpuclockid(r->process, &clock) || clock_gettime(clock, &taken)) return 1;
    double seconds = taken.tv_sec + taken.tv_nsec / 1e9;
    all += seconds - r->seconds;
    r->seconds = seconds;
    return all <= MOST_SECONDS;
}

/* Bytes of memory that no file has. */
static u64 held_by(const reader *r) {
    char text[128];
    u64 part, all = 0;
    snprintf(text, sizeof text, "/proc/%d/status", r->process);
    FILE *file = fopen(text, "re");
    while (file && fgets(text, sizeof text, file))
        if (sscanf(text, "RssAnon: %lu", &part) == 1 || sscanf(text, "VmSwap: %lu", &part) == 1)
            all += part << 10;
    if (file) fclose(file);
    return all;
}

/* Before another reader is asked: ends the one that holds most where all hold too much. Only the one that was
   asked last has grown. */
static void limit_memory(reader *r) {
    static reader *last;
    reader *most = r;
    u64 all = 0;
    if (r == last) return;
    if (last) last->held = held_by(last);
    last = r;
    for (reader *it = readers; it; it = it->next) {
        if (!it->answers) continue;
        all += it->held;
        if (it->held > most->held) most = it;
    }
    if (all > (u64)MOST_HELD) end_reader(most, UNREAD "all modules together take too much memory");
}

void ask(reader *r, enum request_kind kind, const u64 *numbers, u64 count) {
    const request head = {kind, count};
    size_t bytes = count * sizeof *numbers;
    if (r->answers) limit_memory(r);
    if (!r->answers) return;
    int socket = fileno(r->answers);
    if (!is_in_time(r)) end_reader(r, UNREAD "all modules together take too much time");
    else if (send(socket, &head, sizeof head, MSG_NOSIGNAL) != sizeof head
             || send(socket, numbers, bytes, MSG_NOSIGNAL) != (ssize_t)bytes) end_reader(r, 0);
}

static int take(reader *r, void *to, size_t count) {
    static u64 taken;
    if ((taken += count) > MOST_TAKEN) {
        end_reader(r, wrong_answer);
        return 0;
    }
    if (fread(to, 1, count, r->answers) == count) return 1;
    end_reader(r, 0);
    return 0;
}

/* A text has no byte 0 inside. */
static int take_text(reader *r, char *to, u32 length) {
    if (length > MOST_TEXT || !take(r, to, length) || memchr(to, 0, length)) return 0;
    to[length] = 0;
    return 1;
}

int next_answer(reader *r, answer *to) {
    row head;
    if (!r->answers || !take(r, &head, sizeof head) || head.first == END_ROW) return 0;
    if (!take_text(r, r->first, head.first) || !take_text(r, r->second, head.second)) {
        end_reader(r, wrong_answer);
        return 0;
    }
    *to = (answer){head.one, head.two, r->first, r->second};
    return 1;
}

void refuse_answer(reader *r) { end_reader(r, wrong_answer); }

int ask_one(reader *r, enum request_kind kind, const u64 *numbers, u64 count, answer *to) {
    row end;
    ask(r, kind, numbers, count);
    if (!next_answer(r, to)) return 0;
    if (take(r, &end, sizeof end) && end.first != END_ROW) refuse_answer(r);
    return r->answers != 0;
}
