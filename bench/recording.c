/* usage: recording WHAT ROUNDS: threads that do one thing again and again, to measure what recording it
   costs (recording.py). */
#include <pthread.h>
#include <stdatomic.h>
#include <stdlib.h>
#include <string.h>

enum { THREADS = 4, LONGS = 1024, LARGE = 1 << 20 };
static long rounds, counter, sums[THREADS * 64];
long table[LONGS];                     /* not static: the compiler is not to know that nobody writes it */
static atomic_long shared, is_locked;
static pthread_mutex_t mutex = PTHREAD_MUTEX_INITIALIZER;

static long own_array(long *sum) {
    long *own = calloc(LONGS, sizeof *own);
    for (long n = 0; n < rounds; n++)
        for (int k = 0; k < LONGS; k++) *sum += own[k];
    free(own);
    return *sum;
}

static long private_writes(long *sum) {
    long *own = calloc(32, sizeof *own);
    for (long n = 0; n < rounds; n++) own[n & 31] = n;
    *sum = own[7];
    free(own);
    return *sum;
}

static long shared_table(long *sum) {
    for (long n = 0; n < rounds; n++)
        for (int k = 0; k < LONGS; k++) *sum += table[k];
    return *sum;
}

static long under_a_mutex(long *sum) {
    for (long n = 0; n < rounds; n++) {
        pthread_mutex_lock(&mutex);
        counter++;
        pthread_mutex_unlock(&mutex);
    }
    return *sum;
}

static long atomics(long *sum) {
    for (long n = 0; n < rounds; n++) *sum += atomic_fetch_add(&shared, 1);
    return *sum;
}

static long own_atomics(long *sum) {
    atomic_long *own = (atomic_long *)(sum + 8);
    for (long n = 0; n < rounds; n++) {
        atomic_fetch_add_explicit(own, 1, memory_order_relaxed);
        *sum += atomic_load_explicit(own, memory_order_relaxed);
        atomic_fetch_sub_explicit(own, 1, memory_order_acq_rel);
    }
    return *sum;
}

static long lock_of_an_atomic(long *sum) {
    for (long n = 0; n < rounds; n++) {
        while (atomic_exchange_explicit(&is_locked, 1, memory_order_acquire)) ;
        counter++;
        atomic_store_explicit(&is_locked, 0, memory_order_release);
    }
    return *sum;
}

static long blocks(long *sum) {
    for (long n = 0; n < rounds; n++) {
        long *block = malloc(16 + n % 64 * 8);
        block[0] = n;
        *sum += block[0];
        free(block);
    }
    return *sum;
}

static long random_order(long *sum) {
    unsigned random = 1;
    long *own = calloc(LARGE, sizeof *own);
    for (long n = 0; n < rounds; n++) own[(random = random * 1664525u + 1013904223u) >> 12] += n;
    *sum = own[5];
    free(own);
    return *sum;
}

static __attribute__((noinline)) long add(long *sum, long n) { return *sum += n; }
static long calls(long *sum) {
    for (long n = 0; n < rounds; n++) {
        add(sum, 1);
        add(sum, 2);
    }
    return *sum;
}

static const struct { const char *name; long (*work)(long *); } kinds[] = {
    {"own_array", own_array}, {"private_writes", private_writes}, {"shared_table", shared_table},
    {"mutex", under_a_mutex},
    {"atomics", atomics}, {"own_atomics", own_atomics}, {"atomic_lock", lock_of_an_atomic},
    {"blocks", blocks}, {"random_order", random_order}, {"calls", calls}};
static long (*work)(long *);

static void *run(void *sum) { return work(sum), sum; }

int main(int words, char **word) {
    pthread_t thread[THREADS];
    for (unsigned k = 0; words == 3 && k < sizeof kinds / sizeof *kinds; k++)
        if (!strcmp(kinds[k].name, word[1])) work = kinds[k].work;
    if (!work) return 2;
    rounds = atol(word[2]);
    for (int k = 0; k < THREADS; k++) pthread_create(&thread[k], 0, run, &sums[64 * k]);
    for (int k = 0; k < THREADS; k++) pthread_join(thread[k], 0);
    return 0;
}
