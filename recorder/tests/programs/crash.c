/* Ends by a signal that its own code makes, in a thread that has raced before; the word says how. */
#include <pthread.h>
#include <setjmp.h>
#include <signal.h>
#include <stdio.h>
#include <stdlib.h>
#include <string.h>
#include <sys/mman.h>
#include <sys/resource.h>

static int shared, behind;
static volatile int one = 1, zero;
static int *volatile nowhere = (int *)64;
static const char *volatile no_text;
static const char *way;
static sigjmp_buf back;

static int is(const char *word) { return !strcmp(way, word); }
static int recovers(void) { return is("recover") || is("recover-quick"); }

/* The last of many, with nothing else between them. */
static void add_often(void) {
    int *page = mmap(0, 4096, PROT_READ | PROT_WRITE, MAP_PRIVATE | MAP_ANONYMOUS, -1, 0);
    for (int k = 0; k < 1000; k++) {
        if (k == 999) munmap(page, 4096);
        __atomic_fetch_add(page, 1, __ATOMIC_RELAXED); /* QUICK */
    }
}

static void resign(int number) {
    signal(number, SIG_DFL);
    raise(number);
}
static void meet(int number) { *nowhere = 1; /* HANDLED */ }
static void recover(int number) { siglongjmp(back, 1); }

static void break_heap(void) {
    size_t *volatile block = malloc(100);
    block[-1] = 1;
    block = realloc((void *)block, 1000); /* REALLOC */
}

static int fail(void) {
    if (is("abort")) abort();
    if (is("divide")) return one / zero;
    if (is("library")) return strlen(no_text); /* LIBRARY */
    if (is("realloc")) break_heap(); /* HEAP */
    if (is("atomic")) __atomic_fetch_add(nowhere, 1, __ATOMIC_RELAXED); /* ATOMIC */
    if (is("quick") || is("recover-quick")) add_often(); /* OFTEN */
    if (is("recover")) __atomic_store_n(nowhere, 1, __ATOMIC_RELEASE);
    *nowhere = 1; /* STORE */
    return 0;
}

static void *work(void *p) {
    shared++; /* RACE */
    if (recovers() && sigsetjmp(back, 1)) {
        behind++; /* BEHIND */
        return p;
    }
    if (is("handled")) raise(SIGUSR1);
    return fail() ? p : 0; /* CALL */
}

int main(int count, char **words) {
    struct sigaction before;
    pthread_t t;
    way = words[1];
    setrlimit(RLIMIT_CORE, &(struct rlimit){0, 0});
    if (sigaction(SIGSEGV, 0, &before) || before.sa_handler != SIG_DFL) return 2;
    if (is("resign")) signal(SIGSEGV, resign);
    if (recovers()) signal(SIGSEGV, recover);
    if (sigaction(SIGSEGV, 0, &before) || (before.sa_handler == SIG_DFL) != (!is("resign") && !recovers())) return 3;
    signal(SIGUSR1, meet);
    pthread_create(&t, 0, work, 0);
    shared++; /* RACE */
    behind++; /* BEHIND */
    pthread_join(t, 0);
    return 0;
}
