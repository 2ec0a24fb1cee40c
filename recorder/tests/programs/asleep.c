/* With SLEEPS set it sleeps at places where the recorder is in a hook, and right after them, so that another thread takes the turn over
   twice with no step between. Without, a replay shows whether each access comes in its own turn all the same. */
#define _GNU_SOURCE
#include <dlfcn.h>
#include <pthread.h>
#include <stdio.h>
#include <stdlib.h>
#include <sys/syscall.h>
#include <time.h>

enum { ROUNDS = 1000 };
static long shared;
static volatile long rounds, sleeps;
#define UNSEEN __attribute__((noinline, no_sanitize_thread))

/* By a call that the recorder doesn't see. */
static UNSEEN void sleep_for(long nanoseconds) {
    struct timespec time = {0, nanoseconds};
    long result;
    __asm__ volatile("syscall" : "=a"(result) : "a"(SYS_nanosleep), "D"(&time), "S"(0) : "rcx", "r11", "memory");
}

/* Until the other thread has made a further round. */
static UNSEEN void sleep_a_while(void) {
    for (long before = rounds; sleeps && before && rounds < ROUNDS && rounds < before + 2;) sleep_for(1000000);
}

static UNSEEN void end_round(void) {
    rounds++;
    if (sleeps) sleep_for(100000);
}

/* The recorder calls these where a thread is created, and where it begins. */
UNSEEN int pthread_attr_getsigmask_np(const pthread_attr_t *attributes, sigset_t *mask) {
    sleep_a_while();
    return 1;
}

UNSEEN int pthread_getattr_np(pthread_t thread, pthread_attr_t *attributes) {
    int (*real)(pthread_t, pthread_attr_t *) = (int (*)(pthread_t, pthread_attr_t *))dlsym(RTLD_NEXT, "pthread_getattr_np");
    sleep_a_while();
    return real(thread, attributes);
}

void *__libc_memalign(size_t alignment, size_t size);
static volatile int allocates;
static void *volatile block;
UNSEEN void *__libc_malloc(size_t size) {
    if (allocates) sleep_a_while();
    return __libc_memalign(16, size);
}

/* A stream's function, in which the C library sleeps. */
static UNSEEN ssize_t reads(void *stream, char *to, size_t size) {
    sleep_a_while();
    *to = '\n';
    return 1;
}

static void *works(void *x) {
    for (int i = 0; i < ROUNDS; i++) {
        shared++;
        end_round();
    }
    return 0;
}

static void *begins(void *seen) {
    sleep_a_while();
    *(long *)seen = shared;
    return 0;
}

int main(void) {
    pthread_t worker, beginner;
    pthread_attr_t attributes;
    long seen[3];
    FILE *stream = fopencookie(0, "r", (cookie_io_functions_t){.read = reads});
    size_t room = 64;
    char *line = malloc(room);
    sleeps = getenv("SLEEPS") != 0;
    pthread_attr_init(&attributes);
    pthread_create(&worker, 0, works, 0);
    while (!__atomic_load_n(&shared, __ATOMIC_RELAXED)) ;
    pthread_create(&beginner, &attributes, begins, &seen[0]);
    sleep_a_while();
    allocates = 1;
    block = malloc(8);
    allocates = 0;
    seen[1] = shared;
    getline(&line, &room, stream);
    seen[2] = shared;
    pthread_join(beginner, 0);
    pthread_join(worker, 0);
    printf("%ld %ld %ld\n", seen[0], seen[1], seen[2]);
    return 0;
}
