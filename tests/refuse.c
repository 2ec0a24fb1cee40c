/* Preloaded into the program: refuses the request for memory of number REFUSE_MEMORY, counted from 1, and
   with REFUSE_THREADS every thread from that number on; with REFUSE_RANDOM it refuses random numbers, and
   with WATCH_READS each read after the end of a file. Makes the file REFUSED where it refused something. Each
   thread but the first is held at its hundredth request for as long as there is a file HELD. */
#define _GNU_SOURCE
#include <dlfcn.h>
#include <errno.h>
#include <fcntl.h>
#include <pthread.h>
#include <stdlib.h>
#include <unistd.h>

enum { FILES = 64 };

static long requests, threads;
static int has_ended[FILES];

static long setting(const char *name) {
    const char *text = getenv(name);
    return text ? atol(text) : 0;
}

static void note(void) {
    int file = open(getenv("REFUSED"), O_CREAT | O_WRONLY, 0600);
    if (file >= 0) close(file);
}

static void hold(void) {
    static _Thread_local long requests_here __attribute__((tls_model("initial-exec")));
    const char *held = getenv("HELD");
    if (!held || gettid() == getpid() || ++requests_here != 100) return;
    while (access(held, F_OK) == 0) usleep(1000);
}

static int is_refused(void) {
    hold();
    if (__atomic_add_fetch(&requests, 1, __ATOMIC_SEQ_CST) != setting("REFUSE_MEMORY")) return 0;
    note();
    errno = ENOMEM;
    return 1;
}

void *malloc(size_t size) {
    static void *(*next)(size_t);
    if (!next) next = dlsym(RTLD_NEXT, "malloc");
    return is_refused() ? NULL : next(size);
}

void *realloc(void *old, size_t size) {
    static void *(*next)(void *, size_t);
    if (!next) next = dlsym(RTLD_NEXT, "realloc");
    return is_refused() ? NULL : next(old, size);
}

void *aligned_alloc(size_t align, size_t size) {
    static void *(*next)(size_t, size_t);
    if (!next) next = dlsym(RTLD_NEXT, "aligned_alloc");
    return is_refused() ? NULL : next(align, size);
}

int posix_memalign(void **place, size_t align, size_t size) {
    static int (*next)(void **, size_t, size_t);
    if (!next) next = dlsym(RTLD_NEXT, "posix_memalign");
    return is_refused() ? ENOMEM : next(place, align, size);
}

int pthread_create(pthread_t *thread, const pthread_attr_t *how, void *(*start)(void *), void *given) {
    static int (*next)(pthread_t *, const pthread_attr_t *, void *(*)(void *), void *);
    if (!next) next = dlsym(RTLD_NEXT, "pthread_create");
    long first = setting("REFUSE_THREADS");
    if (first == 0 || __atomic_add_fetch(&threads, 1, __ATOMIC_SEQ_CST) < first)
        return next(thread, how, start, given);
    note();
    return EAGAIN;
}

int getentropy(void *buffer, size_t size) {
    static int (*next)(void *, size_t);
    if (!next) next = dlsym(RTLD_NEXT, "getentropy");
    if (!setting("REFUSE_RANDOM")) return next(buffer, size);
    note();
    errno = EPERM;
    return -1;
}

ssize_t read(int file, void *buffer, size_t size) {
    static ssize_t (*next)(int, void *, size_t);
    if (!next) next = dlsym(RTLD_NEXT, "read");
    int is_watched = setting("WATCH_READS") && file >= 0 && file < FILES;
    if (is_watched && has_ended[file]) {
        note();
        errno = EIO;
        return -1;
    }
    ssize_t count = next(file, buffer, size);
    /* no byte is asked for where standard input is only looked at */
    if (is_watched && size && count == 0) has_ended[file] = 1;
    return count;
}
