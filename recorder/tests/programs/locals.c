/* Locals that other threads use: what a line's accesses are of stands behind IS; "-" where no name is certain. */
#include <pthread.h>
#include <sched.h>
#include <stdlib.h>

#define APART __attribute__((noinline, noclone))
#define UNSEEN __attribute__((noinline, no_sanitize_thread))
struct item { int id; struct { long low, high; } range; };
struct queue { long head; struct item items[3]; struct item *last; };
static volatile int ended;
static long looked;
static long *far;

UNSEEN static void set(volatile int *flag) { *flag = 1; }
UNSEEN static void await(volatile int *flag) { while (!*flag) sched_yield(); }

static void *add(void *p) {
    long *total = p;
    *total += 1; /* IS total of main, mine of descend, buffer[2] of worker, kept of helper, first of blocks, second of blocks, wide[1] of wide_one, beside of sized */
    return 0;
}

static void *push(void *p) {
    struct queue *q = p;
    q->head++; /* IS queue.head of main */
    q->items[1].range.high = 3; /* IS queue.items[1].range.high of main */
    q->last = 0; /* IS queue.last of main */
    return 0;
}

static void *fill(void *p) {
    int *cells = p;
    cells[4] = 1; /* IS cells[4] of grid, cells[0][4] of main */
    return 0;
}

static void *late(void *p) {
    await(&ended);
    looked = *(volatile long *)p; /* IS - */
    return 0;
}

static void *sized_one(void *p) {
    *(long *)p = 1; /* IS - */
    return 0;
}

static pthread_t start(void *(*function)(void *), void *argument) {
    pthread_t t;
    if (pthread_create(&t, 0, function, argument)) abort();
    return t;
}

APART static long with(void *(*function)(void *), long *value) {
    pthread_t t = start(function, value);
    *value += 2; /* IS total of main, mine of descend, buffer[2] of worker, kept of helper, first of blocks, second of blocks, wide[1] of wide_one, beside of sized */
    pthread_join(t, 0);
    return *value;
}

/* Two frames of one function. */
APART static long descend(int more) {
    long mine = more, *outer = far;
    far = &mine;
    if (more) mine += descend(more - 1);
    else with(add, outer);
    return with(add, &mine) + more;
}

static void *worker(void *p) {
    long buffer[4] = {0};
    with(add, &buffer[2]);
    return 0;
}

APART static int grid(void) {
    int cells[8] = {0};
    pthread_t t = start(fill, cells);
    cells[4] = 2; /* IS cells[4] of grid */
    pthread_join(t, 0);
    return cells[4];
}

static inline __attribute__((always_inline)) long helper(long from) {
    long kept = from;
    return with(add, &kept);
}

/* What is in blocks of which one is at an end may have one place. */
APART static long blocks(long n) {
    long sum = 0;
    {
        long first = n;
        sum += with(add, &first);
    }
    {
        long second = n;
        sum += with(add, &second);
    }
    return sum;
}

APART static long wide_one(void) {
    _Alignas(64) long wide[8] = {0};
    return with(add, &wide[1]);
}

/* Its stack pointer isn't where it was when it began. */
APART static long sized(int n) {
    long beside = n, many[n];
    pthread_t t = start(sized_one, &many[n / 2]);
    many[n / 2] = 2; /* IS - */
    pthread_join(t, 0);
    with(add, &beside);
    return many[n / 2] + beside;
}

/* The thread uses the variable when the function is at an end. */
APART static pthread_t leave(void) {
    long gone = 0;
    pthread_t t = start(late, &gone);
    gone++; /* IS gone of leave */
    sched_yield();
    return t;
}

int main(int count, char **words) {
    long total = 0;
    struct queue queue = {0};
    int cells[2][8] = {{0}};
    pthread_t t = start(push, &queue);
    queue.head++; /* IS queue.head of main */
    queue.items[1].range.high = 5; /* IS queue.items[1].range.high of main */
    queue.last = &queue.items[0]; /* IS queue.last of main */
    pthread_join(t, 0);
    t = start(fill, cells);
    cells[0][4] = count; /* IS cells[0][4] of main */
    pthread_join(t, 0);
    total += with(add, &total);
    pthread_join(start(worker, 0), 0);
    total += descend(1) + grid() + helper(count) + blocks(count) + wide_one() + sized(4 * count) + sized(6 * count);
    t = leave();
    set(&ended);
    pthread_join(t, 0);
    return total + cells[0][4] + queue.head + queue.items[1].range.high == 0 && looked;
}
