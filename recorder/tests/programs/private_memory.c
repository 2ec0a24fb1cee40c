/* Some millions of accesses of memory that one thread alone uses, and of what the threads use in turn; the race comes at the end. With the
   word "crash" the program ends by a store to the address 0x40, with "deep" there are more contexts than are kept. */
#include <pthread.h>
#include <stdlib.h>
#include <string.h>

static long shared, taken[64];
static volatile int *nowhere = (int *)0x40;
static int rounds = 20, most_levels = 9;

/* Each call is another context. */
static void descend(long *sum, int levels) {
    ++*sum;
    if (!levels) return;
    descend(sum, levels - 1);
    descend(sum, levels - 1);
}

static __attribute__((noinline)) void add_up(long *own) {
    for (int i = 0; i < 300000; i++) own[i % 16] += i;
}

static void *work(void *p) {
    long *own = calloc(1024, sizeof *own);
    for (int round = 0; round < 250; round++)
        for (int i = 0; i < 1024; i++) own[i] += i;
    for (int round = 0; round < 4000; round++) taken[(long)p * 8 + round % 8]++;
    for (int round = 0; round < rounds; round++) descend(own, most_levels);
    add_up(own);
    shared += own[7]; /* RACE */
    free(own);
    return 0;
}

int main(int count, char **words) {
    pthread_t threads[4];
    if (count > 1 && !strcmp(words[1], "deep")) rounds = 1, most_levels = 17;
    for (long i = 0; i < 4; i++) pthread_create(&threads[i], 0, work, (void *)i);
    for (int i = 0; i < 4; i++) pthread_join(threads[i], 0);
    if (count > 1 && !strcmp(words[1], "crash")) *nowhere = 1; /* CRASH */
    return 0;
}
