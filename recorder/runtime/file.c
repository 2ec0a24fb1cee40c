/* The files of the record and of its list of turns, and /proc.  Their descriptors have numbers that
   programs aren't given, and are spared where they close all that they have; what reached one nevertheless
   is seen before each use, for then the number may be that of a file of the program.  Faults leave errno. */
#include "runtime.h"
#include <sys/file.h>
#include <sys/vfs.h>

enum { HIGHEST_DESCRIPTOR = 1023 };    /* the kernel's tables grow with the highest */
typedef struct { dev_t device; ino_t inode; } identity;

static struct { int number, flags; identity of; char path[PATH_MAX]; } kept[] = {
    [RECORD] = {-1, O_RDWR}, [TURNS] = {-1, O_RDWR}, [PROC] = {-1, O_PATH | O_DIRECTORY, .path = "/proc"},
};
enum { KEPT = sizeof kept / sizeof *kept };
static char *const path = kept[RECORD].path;
static identity of_messages;
static char pattern[PATH_MAX];         /* the path of the record, as it was asked for */

/* ---- which file a descriptor stands for ---- */
static identity identity_of(int descriptor) {
    struct stat status;
    if (syscall(SYS_fstat, descriptor, &status)) return (identity){0, 0};
    return (identity){status.st_dev, status.st_ino};
}

static int is_file(int descriptor, identity which) {
    identity now = identity_of(descriptor);
    return now.inode && now.inode == which.inode && now.device == which.device;
}

/* Messages go where they went at first: a program may have closed that, and have a file of its own there. */
void begin_messages(void) { of_messages = identity_of(2); }
void tell(const char *format, ...) {
    char text[PATH_MAX + 300] = "shb recorder: ";
    size_t length = strlen(text);
    va_list more;
    va_start(more, format);
    vsnprintf(text + length, sizeof text - length - 1, format, more);
    va_end(more);
    length = strlen(text);
    text[length] = '\n';
    if (is_file(2, of_messages)) syscall(SYS_write, 2, text, length + 1);
}

/* ---- the number ---- */
/* The descriptor's file under a number from `from` on, or else from its half on, and so on; or as it is. */
static int moved_up(int descriptor, int from) {
    int up = -1;
    for (; up < 0 && from > 2; from /= 2) up = syscall(SYS_fcntl, descriptor, F_DUPFD_CLOEXEC, from);
    if (up < 0) return descriptor;
    syscall(SYS_close, descriptor);
    return up;
}

static int highest(void) {
    struct rlimit limit = {0, 0};
    getrlimit(RLIMIT_NOFILE, &limit);
    return limit.rlim_cur > HIGHEST_DESCRIPTOR ? HIGHEST_DESCRIPTOR : (int)limit.rlim_cur - 1;
}

static int has(int which) { return is_file(kept[which].number, kept[which].of); }

/* Opens it by its path. */
static int keep(int which, int flags) {
    int opened = syscall(SYS_openat, AT_FDCWD, kept[which].path, kept[which].flags | flags | O_CLOEXEC, 0666);
    if (opened < 0) return 0;
    kept[which].number = moved_up(opened, highest());
    kept[which].of = identity_of(kept[which].number);
    return 1;
}

/* The record's descriptor, which is the caller's from here on; or -1. */
int take_file(void) {
    int file = has(RECORD) ? kept[RECORD].number : -1;
    kept[RECORD].number = -1;
    return file;
}

/* A process made by fork would hold its parent's open and locked. */
void leave_file(enum kept_file which) {
    if (has(which)) syscall(SYS_close, kept[which].number);
    kept[which].number = -1;
}

/* The lowest number from `from` on that is the recorder's, or one that no descriptor has. */
unsigned next_kept(unsigned from) {
    unsigned lowest = ~0u;
    for (int which = 0; which < KEPT; which++) {
        unsigned number = kept[which].number;
        if (number >= from && number < lowest && has(which)) lowest = number;
    }
    return lowest;
}

int is_kept(int descriptor) { return descriptor >= 0 && next_kept(descriptor) == (unsigned)descriptor; }

/* The program wants this number: what is kept there moves elsewhere. */
void leave_number(int descriptor) {
    thread *t = is_kept(descriptor) ? enter(NEVER_YIELD) : 0;           /* so nobody uses the old one now */
    for (int which = 0; which < KEPT; which++)
        if (is_kept(descriptor) && kept[which].number == descriptor)
            kept[which].number = moved_up(descriptor, descriptor + 1);
    if (t) leave(t);
}

/* Is it still the recorder's?  If not it is opened again by its path, unless that leads elsewhere now. */
static int have(int which) {
    identity before = kept[which].of;
    if (has(which)) return 1;
    if (!keep(which, 0)) return 0;
    if (!before.inode || is_file(kept[which].number, before)) return 1;
    leave_file(which);
    kept[which].of = before;
    errno = ENOENT;
    return 0;
}

/* ---- /proc, which a program may lose by chroot: it is opened at first use ---- */
/* Reads a file of one of the process's threads; returns how many bytes, or -1.  The calls of the C library
   would be points where a thread may be cancelled. */
int read_task_file(pid_t system_id, const char *leaf, char *text, int size) {
    char name[64];
    snprintf(name, sizeof name, "self/task/%d/%s", system_id, leaf);
    int f = have(PROC) ? syscall(SYS_openat, kept[PROC].number, name, O_RDONLY | O_CLOEXEC, 0) : -1;
    int n = f < 0 ? -1 : syscall(SYS_read, f, text, size - 1);
    if (f >= 0) syscall(SYS_close, f);
    if (n >= 0) text[n] = 0;
    return n;
}

/* ---- disk space: taken before it is written, for a full disk would be a SIGBUS at the write ---- */
uint64_t free_space(void) {
    struct statfs disk;
    if (!have(RECORD) || syscall(SYS_fstatfs, kept[RECORD].number, &disk) || !disk.f_blocks) return -1;
    return disk.f_bavail * (disk.f_frsize ? disk.f_frsize : disk.f_bsize);
}

static int may_have(uint64_t bytes) {  /* past the limit of a file's size a signal would kill the program */
    struct rlimit limit;
    if (getrlimit(RLIMIT_FSIZE, &limit) || limit.rlim_cur >= bytes) return 1;
    errno = EFBIG;
    return 0;
}

/* Zeros are written: so the pages are there, by large pieces, and need neither a read nor a fault each. */
int add_space(enum kept_file which, uint64_t from, uint64_t bytes) {
    static const char zeros[1 << 16];
    if (!have(which) || !may_have(from + bytes)) return 0;
    int file = kept[which].number, has_call = !syscall(SYS_fallocate, file, 0, from, bytes);
    if (!has_call && errno != EOPNOTSUPP && errno != ENOSYS) return 0;      /* some file systems haven't it */
    for (uint64_t at = from; at < from + bytes; at += sizeof zeros)
        if (syscall(SYS_pwrite64, file, zeros, sizeof zeros, at) != sizeof zeros) return 0;
    return 1;
}

int write_file(const char *from, uint64_t bytes) {
    if (!have(RECORD)) return 0;
    for (uint64_t done = 0; done < bytes;) {
        ssize_t n = syscall(SYS_pwrite64, kept[RECORD].number, from + done, bytes - done, done);
        if (n <= 0) return 0;
        done += n;
    }
    return 1;
}

void cut_file(enum kept_file which, uint64_t bytes) {
    int failed = have(which) && syscall(SYS_ftruncate, kept[which].number, bytes);
    (void)failed;                                            /* then zeros stay after what is written */
}

void *map_file(enum kept_file which, void *at, uint64_t bytes) {
    int flags = MAP_SHARED | MAP_NORESERVE | (at ? MAP_FIXED : 0);
    return have(which) ? mmap(at, bytes, PROT_READ | PROT_WRITE, flags, kept[which].number, 0) : MAP_FAILED;
}

/* ---- begin and end ---- */
/* A path with %p is one for each process: its number stands there; at %s that of a segment of its record. */
int has_number(void) { return strstr(pattern, "%p") != 0; }

/* The folder may be another one when a child opens its record. */
int keep_path(const char *asked) {
    char here[PATH_MAX] = "";
    if (*asked != '/' && !getcwd(here, sizeof here)) return 0;
    if (strlen(here) + 1 + strlen(asked) + 20 < sizeof pattern) {
        snprintf(pattern, sizeof pattern, "%s%s%s", here, *here ? "/" : "", asked);
        return 1;
    }
    errno = ENAMETOOLONG;
    return 0;
}

static int execs;                      /* a program that execs keeps its number: then a count follows it */

static void fill_in(char *text, const char *mark, const char *with) {
    static char rest[PATH_MAX];
    char *at = strstr(text, mark);
    if (!at) return;
    strcpy(rest, at + strlen(mark));
    snprintf(at, PATH_MAX - (at - text), "%s%s", with, rest);
}

static const char *path_of(uint64_t segment) {
    static char name[PATH_MAX];
    char number[40], count[24];
    snprintf(number, sizeof number, execs ? "%d-%d" : "%d", getpid(), execs);
    snprintf(count, sizeof count, "%lu", segment);
    strcpy(name, pattern);
    fill_in(name, "%p", number);
    fill_in(name, "%s", count);
    return name;
}

static void number_path(uint64_t segment) {
    if (segment == 1) execs = 0;
    strcpy(path, path_of(segment));
    while (segment == 1 && has_number() && execs < 999 && !access(path, F_OK)) {
        execs++;
        strcpy(path, path_of(segment));
    }
}

void drop_segment(uint64_t segment) { syscall(SYS_unlink, path_of(segment)); }

int refuse(const char *which) {
    tell("cannot write %s: %s; the program runs unrecorded", which, strerror(errno));
    return 0;
}

/* Does the file begin with something else? Then it is another's, and stays. */
static int is_foreign(int file, const char *begin) {
    char text[16];
    ssize_t n = pread(file, text, strlen(begin), 0);
    return n > 0 && strncmp(text, begin, n);
}

/* Whose record is in the file, if not this command's: a script that runs two would lose it in silence. */
static void tell_what_is_replaced(const char *command) {
    char text[sizeof RECORD_MAGIC + COMMAND_BYTES] = "", *line = text + strlen(RECORD_MAGIC);
    if (pread(kept[RECORD].number, text, sizeof text - 1, 0) < 0
        || strncmp(text, RECORD_MAGIC "command ", strlen(RECORD_MAGIC "command "))) return;
    if (!strncmp(line, command, strlen(command))) return;
    line[strcspn(line, "\n")] = 0;
    tell("in %s the record of another command is replaced (%s); %%p in the path gives each "
            "process a record of its own", path, line + strlen("command "));
}

/* Opens the file and locks it: cut by a second process it is a SIGBUS in the first.  Says why it can't. */
int open_file(const char *command, uint64_t first_bytes, uint64_t segment) {
    number_path(segment);
    if (!keep(RECORD, O_CREAT)) return refuse(path);
    int file = kept[RECORD].number;
    if (flock(file, LOCK_EX | LOCK_NB) && errno == EWOULDBLOCK) {
        tell("another process records to %s; the program runs unrecorded (%%p in the path "
                "gives each process a record of its own)", path);
        return 0;
    }
    if (is_foreign(file, ANY_RECORD)) {
        tell("%s is no record, and isn't replaced by one; the program runs unrecorded", path);
        return 0;
    }
    if (!has_number()) tell_what_is_replaced(command);
    if (!may_have(first_bytes) || (ftruncate(file, 0) && errno != EINVAL)
        || !add_space(RECORD, 0, HEADER_BYTES)) return refuse(path);
    return 1;
}

/* The list of turns is beside the record: PATH.turns of PATH.rec, and of another PATH. */
int open_turns(uint64_t first_bytes) {
    size_t n = strlen(path), end = strlen(".rec");
    if (n > end && !strcmp(path + n - end, ".rec")) n -= end;
    if (snprintf(kept[TURNS].path, PATH_MAX, "%.*s.turns", (int)n, path) >= PATH_MAX || !keep(TURNS, O_CREAT))
        return 0;
    int file = kept[TURNS].number;
    return !is_foreign(file, ANY_TURNS) && !ftruncate(file, 0) && add_space(TURNS, 0, first_bytes);
}
