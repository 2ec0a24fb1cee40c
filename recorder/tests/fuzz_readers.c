/* libFuzzer's side of fuzz.py: each input is given to shb-std as a record, or as what the reader of a module answers, or to that reader as
   a module, in a process of its own, for both are written to run once.  These are forked by a process that was itself forked before libFuzzer had
   tables: to copy those takes longer than most runs.  What a process counted of the ways that it went is added to the counts here. */
#define _GNU_SOURCE
#include <errno.h>
#include <fcntl.h>
#include <signal.h>
#include <stdint.h>
#include <stdio.h>
#include <stdlib.h>
#include <string.h>
#include <sys/mman.h>
#include <sys/socket.h>
#include <sys/wait.h>
#include <unistd.h>
#include "../record.h"
#ifdef FUZZ_MODULES
#include "../reader/debug.h"
#endif

enum { SECONDS = 120, LONGEST = 1 << 16 };
int command(int count, char **words);  /* main of the command that is tried */
extern uint8_t __start___sancov_cntrs, __stop___sancov_cntrs;
void __sanitizer_cov_8bit_counters_init(uint8_t *start, uint8_t *stop);      /* linkers drop clang's own call of it */
static uint8_t *counted, *shared;      /* shared with the process: what it counted, and the input */
static int forker;                     /* gets the size of the input, gives the status of the process */
static char folder[] = "/tmp/shb-fuzz-XXXXXX", races[64], finer_races[64], page[64], stacks[64], input[64], package[64], said[64];
static int file, words_file;

static void start_forker(void);
static size_t count_bytes(void) { return &__stop___sancov_cntrs - &__start___sancov_cntrs; }

/* Each way out of the command comes by here: what libFuzzer would do at an end isn't done. */
static void end_process(void) {
    memcpy(counted, &__start___sancov_cntrs, count_bytes());
    fflush(0);
    _exit(0);
}

int LLVMFuzzerInitialize(int *count, char ***words) {
    counted = mmap(0, count_bytes() + LONGEST, PROT_READ | PROT_WRITE, MAP_SHARED | MAP_ANONYMOUS, -1, 0);
    shared = counted + count_bytes();
    if (counted == MAP_FAILED || !mkdtemp(folder)) abort();
    snprintf(races, sizeof races, "%s/races", folder);
    snprintf(page, sizeof page, "%s/page", folder);
    snprintf(stacks, sizeof stacks, "%s/stacks", folder);
    snprintf(input, sizeof input, "%s/input.dwo", folder);    /* it is also what a module's split files and package are */
    snprintf(package, sizeof package, "%s/input.dwo.dwp", folder);
    if (symlink("input.dwo", package)) abort();
    snprintf(said, sizeof said, "%s/said", folder);
    file = openat(AT_FDCWD, races, O_RDWR | O_CREAT | O_TRUNC, 0600);       /* the reader has an open of its own */
    if (file < 0 || dprintf(file, "1 3 0x5000\n2 40 0x5008\n") < 0 || close(file)) abort();
    snprintf(finer_races, sizeof finer_races, "%s/finer-races", folder);
    file = openat(AT_FDCWD, finer_races, O_RDWR | O_CREAT | O_TRUNC, 0600);
    if (file < 0 || dprintf(file, "1 3 0x5000~\n1 3 0x9000~\nagain\n1 3 0x5000\n2 40 0x5008\n") < 0 || close(file)) abort();
    file = openat(AT_FDCWD, input, O_RDWR | O_CREAT | O_TRUNC, 0600);
    words_file = openat(AT_FDCWD, said, O_RDWR | O_CREAT | O_TRUNC | O_APPEND, 0600);
    if (file < 0 || words_file < 0) abort();
    start_forker();
    __sanitizer_cov_8bit_counters_init(&__start___sancov_cntrs, &__stop___sancov_cntrs);
    return 0;
}

static void put(const void *bytes, size_t count, off_t at) {
    if (pwrite(file, bytes, count, at) != (ssize_t)count) abort();
}

#ifdef FUZZ_TEXTS
/* The first byte says which code of a module it is that the rest is a line of; what does that mean at each column? Nothing of this ends the process. */
static void read_text(const uint8_t *data, size_t size) {
    static debug *d;
    char line[LINE_BYTES] = "";
    if (!d) read_units(d = open_debug("./module-of-texts"));
    memcpy(line, data + 1, size <= sizeof line ? size - 1 : sizeof line - 1);
    u64 low = d->spans.at[0].low, pc = low + data[0] * (d->spans.at[0].high - low) / 256 + d->bias;
    for (int column = 1; line[column - 1]; column++) meaning_in_line(d, pc, column % 2, line, column);
}
#elif defined FUZZ_MODULES
static int prepare(const uint8_t *data, size_t size, char **words) {
    put(data, size, 0);
    return 0;
}

static u64 given;
static void take_text(const char *text) { given += strlen(text); }

/* Asks for what shb-record does, for a name in each variable, of locals of each function, of blocks that it allocates, and of the frames at
   its code. */
static int read_module(void) {
    enum { MOST = 64 };
    char name[NAME_BYTES];
    debug_frame frames[MOST];
    debug *d = open_debug(input);
    why_unread(d);
    tell_kind(d);
    tell_calls(d);
    is_variable(d, "one");
    for (u64 k = 0; k < d->symbols.count && k < 16 * MOST; k++) symbol_from(d, d->symbols.at[k].at);
    each_source(d, take_text);
    add_member(d, 1, 0, 4, name, sizeof name);               /* of none: all are read */
    for (u64 k = 0; k < d->variables.numbers.capacity && k < 16 * MOST; k++)
        for (u64 offset = 0; d->variables.numbers.entries[k].value && offset < MOST; offset += 4)
            add_member(d, d->variables.numbers.entries[k].a, offset, 4, name, sizeof name);
    for (u64 k = 0; k < d->spans.count && k < 16 * MOST; k++)
        for (u64 at = 0; at < MOST; at += 4) {
            u64 pc = d->spans.at[k].low + d->bias + at;
            for (int n = frames_at(d, pc, frames, MOST); n-- > 0;) free(frames[n].function);
            add_local(d, (place_of_local){pc, at, at, 4}, name, sizeof name);
            add_in_block(d, (place_in_block){pc, MOST, at, 4}, name, sizeof name, &(int){0});
            object_by_use(d, (place_in_block){pc, MOST, at, 4}, 0, &(object_in_block){.size = 0});
        }
    return 0;
}
#elif defined FUZZ_ANSWERS
/* A record whose module has a reader that answers the input, whatever it is asked. */
static int prepare(const uint8_t *data, size_t size, char **words) {
    put(data, size, 0);
    setenv("SHB_ANSWERS", input, 1);
    words[0] = "shb-std", words[1] = "--stacks", words[2] = stacks, words[3] = "record-of-answers";
    return 4;
}
#else
/* The first byte says which options there are, the second how many bytes of the header come before the records. */
static int prepare(const uint8_t *data, size_t size, char **words) {
    static char header[HEADER_BYTES];
    size_t head = size > 1 ? data[1] : 0, from = size < 2 ? size : 2;
    if (head > size - from) head = size - from;
    memset(header, 0, sizeof header);
    strcpy(header, RECORD_MAGIC);
    memcpy(header + strlen(RECORD_MAGIC), data + from, head);
    strcpy(header + ENDED_AT, ENDED_WHOLE);
    put(header, sizeof header, 0);
    put(data + from + head, size - from - head, HEADER_BYTES);
    int count = 0;
    words[count++] = "shb-std";
    if (data[0] & 1) words[count++] = "--list";
    if (data[0] & 2) words[count++] = "-a";
    if (data[0] & 4) { words[count++] = "--stacks"; words[count++] = stacks; }
    int is_coarse = (data[0] & 41) == 41;
    if (data[0] & 8) { words[count++] = "--only"; words[count++] = is_coarse ? finer_races : races; words[count++] = "--page"; words[count++] = page; }
    if (is_coarse) { words[count++] = "--finer"; words[count++] = "1"; }
    if (data[0] & 8 && data[0] & 16) { words[count++] = "--uses"; words[count++] = "/dev/null"; }
    words[count++] = input;
    return count;
}
#endif

#ifdef FUZZ_TEXTS
static void start_forker(void) {}

int LLVMFuzzerTestOneInput(const uint8_t *data, size_t size) {
    if (size) read_text(data, size);
    return 0;
}
#else
static void run(const uint8_t *data, size_t size) {
    char *words[20] = {0};
    int null = openat(AT_FDCWD, "/dev/null", O_RDWR);        /* the reader's own open takes regular files alone */
    dup2(null, 0), dup2(null, 1), dup2(words_file, 2);
    alarm(SECONDS);
    atexit(end_process);
    int count = prepare(data, size, words);
#ifdef FUZZ_MODULES
    exit(read_module());
#else
    exit(command(count, words));
#endif
}

/* Shows what the process said, and ends so that libFuzzer keeps the input. */
static void report(int status) {
    char text[1 << 14];
    ssize_t length = pread(words_file, text, sizeof text - 1, 0);
    fprintf(stderr, "%.*s\nthe process ended by %s %d\n", (int)(length > 0 ? length : 0), text,
            WIFSIGNALED(status) ? "signal" : "status", WIFSIGNALED(status) ? WTERMSIG(status) : WEXITSTATUS(status));
    abort();
}

/* Forks a process for each size that comes, until libFuzzer ends. */
static void serve(int requests) {
    size_t size;
    while (read(requests, &size, sizeof size) == sizeof size) {
        memset(&__start___sancov_cntrs, 0, count_bytes());
        int status = 0;
        pid_t process = fork();
        if (!process) run(shared, size);
        while (process > 0 && waitpid(process, &status, 0) < 0) ;
        if (write(requests, &status, sizeof status) < 0) break;
    }
    _exit(0);
}

static void start_forker(void) {
    int ends[2];
    if (socketpair(AF_UNIX, SOCK_STREAM | SOCK_CLOEXEC, 0, ends)) abort();
    pid_t process = fork();
    if (process < 0) abort();
    close(ends[process > 0]);
    if (!process) serve(ends[1]);
    forker = ends[0];
}

int LLVMFuzzerTestOneInput(const uint8_t *data, size_t size) {
    if (!size || size > LONGEST) return 0;
    int status = 0;
    if (ftruncate(file, 0) || ftruncate(words_file, 0)) abort();
    memcpy(shared, data, size);
    memset(counted, 0, count_bytes());
    if (write(forker, &size, sizeof size) != sizeof size) abort();
    ssize_t got;
    while ((got = read(forker, &status, sizeof status)) < 0 && errno == EINTR) ;      /* libFuzzer has an alarm now and then */
    if (got != sizeof status) abort();
    if (status) report(status);
    uint8_t *own = &__start___sancov_cntrs;
    for (size_t k = 0; k < count_bytes(); k++) own[k] = counted[k] > own[k] ? counted[k] : own[k];
    return 0;
}
#endif
