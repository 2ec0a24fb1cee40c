/* Ways into functions and out of them. Behind IN: the functions that an access is in, the innermost first; of several ways,
   with a comma between them. Those of the C library are left out. */
#define _GNU_SOURCE
#include <pthread.h>
#include <setjmp.h>
#include <signal.h>
#include <stdlib.h>
#include <sys/wait.h>
#include <unistd.h>
#define APART __attribute__((noinline, noclone))
static int a;
static pthread_barrier_t meeting;
static pthread_key_t key;
static __thread jmp_buf back;
static __thread sigjmp_buf back_from_handler;

/* one function, several callers */
APART static void add(int n) {
    a += n;                            /* IN add deposit teller, add teller */
}
APART static void deposit(int n) {
    add(n);
    a++;                               /* IN deposit teller */
}
APART static void teller(void) {
    for (int i = 0; i < 3; i++) deposit(i);
    add(1);
    a++;                               /* IN teller run */
}

/* recursion, in tails too */
APART static int sum(int n) {
    a += n;                            /* IN sum teller2, sum sum teller2, sum sum sum teller2 */
    return n ? sum(n - 1) + 1 : 0;
}
APART static void odd(int n);
APART static void even(int n) {
    if (n) odd(n - 1);
    else a++;                          /* IN even odd even teller2 */
}
APART static void odd(int n) {
    if (n) even(n - 1);
    else a += 2;                       /* IN odd even odd teller2 */
}
APART static void teller2(void) {
    sum(2);
    even(2);
    odd(2);
    a++;                               /* IN teller2 run */
}

/* callbacks */
APART static int compare(const void *x, const void *y) {
    a++;                               /* IN compare sorter run, compare by_table sorter */
    return *(const int *)x - *(const int *)y;
}
APART static int by_table(int (*const *table)(const void *, const void *), const int *numbers) {
    return table[0](numbers, numbers + 1) + 1;
}
APART static void sorter(void) {
    int numbers[] = {2, 1};
    int (*table[])(const void *, const void *) = {compare};
    qsort(numbers, 2, sizeof *numbers, compare);
    by_table(table, numbers);
    a++;                               /* IN sorter run */
}

/* ways out that call no hook */
APART static void jump(int n) {
    if (!n) longjmp(back, 1);
    jump(n - 1);
    a++;
}
APART static void large(int n) {
    volatile char room[500];
    room[n] = 1;
    a += room[n];                      /* IN large jumper */
}
APART static void jumper(void) {
    if (!setjmp(back)) jump(3);
    else large(1);
    a++;                               /* IN jumper run */
}
static void on_fault(int n) { siglongjmp(back_from_handler, 1); }
APART static void fault(int n) {
    a++;                               /* IN fault survivor */
    *(volatile int *)(long)n = 1;
}
APART static void survivor(void) {
    char *room = malloc(65536);
    stack_t own = {.ss_sp = room, .ss_size = 65536};
    sigaltstack(&own, 0);
    if (!sigsetjmp(back_from_handler, 1)) fault(8);
    a++;                               /* IN survivor run */
}
APART static void child(void) {
    execl("/bin/true", "true", NULL);
    _exit(1);
}
APART static void parent(void) {
    pid_t p = vfork();
    if (!p) child();
    waitpid(p, 0, 0);
    a++;                               /* IN parent run */
}
APART static void note(int n) {
    a -= n;                            /* IN note on_signal handler? poke run, note poke */
}
static void on_signal(int n) { note(n); }
APART static void poke(void) {
    raise(SIGUSR1);
    note(1);
    a++;                               /* IN poke run */
}
static void at_end(void *x) {
    a++;                               /* IN at_end */
}
APART static void leave(int n) {
    if (n) leave(n - 1);
    a++;                               /* IN leave leave run */
    pthread_exit(0);
}

static void *run(void *x) {
    pthread_barrier_wait(&meeting);
    pthread_setspecific(key, &key);
    teller();
    teller2();
    sorter();
    jumper();
    survivor();
    parent();
    poke();
    a++;                               /* IN run */
    leave(1);
    return 0;
}
APART static void both(void) {
    pthread_t t, u;
    pthread_create(&t, 0, run, 0);     /* IN both main, both forker main */
    pthread_create(&u, 0, run, 0);     /* IN both main, both forker main */
    pthread_join(t, 0);
    pthread_join(u, 0);
}
APART static void forker(void) {
    pid_t p = fork();
    if (!p) {
        both();
        exit(0);
    }
    waitpid(p, 0, 0);
}
int main(void) {
    struct sigaction fault = {.sa_handler = on_fault, .sa_flags = SA_ONSTACK}, mild = {.sa_handler = on_signal};
    sigaction(SIGSEGV, &fault, 0);
    sigaction(SIGUSR1, &mild, 0);
    pthread_key_create(&key, at_end);
    pthread_barrier_init(&meeting, 0, 2);
    forker();
    both();
}
