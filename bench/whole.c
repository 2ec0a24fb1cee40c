/* usage: whole WHAT ROUNDS: programs with one race each, to measure what all of shb-record
   costs (whole.py). */
#include <pthread.h>
#include <stdatomic.h>
#include <stdint.h>
#include <stdlib.h>
#include <string.h>

enum { THREADS = 4, BLOCK = 16384, HASHES = 4096, LOCKS = 64, ROWS = 4096 };
static long rounds, finished;          /* the race: each thread counts itself */
static long next_block, filled, done, sum, table[ROWS], counter;
static uint8_t *input, *output;
static pthread_mutex_t queue = PTHREAD_MUTEX_INITIALIZER, locks[LOCKS];
static pthread_cond_t changed = PTHREAD_COND_INITIALIZER;
static atomic_int is_locked;

static unsigned drawn(unsigned *state) { return *state = *state * 1664525 + 1013904223; }

/* Literals, and copies of what a hash of three bytes finds: as LZ77 does. */
static void compress(const uint8_t *from, uint8_t *to) {
    static _Thread_local int seen[HASHES];
    memset(seen, 0, sizeof seen);
    for (int at = 0; at + 3 < BLOCK;) {
        unsigned hash = (from[at] | from[at + 1] << 8 | from[at + 2] << 16) * 2654435761u >> 20;
        int before = seen[hash], length = 0;
        seen[hash] = at;
        while (before < at && at + length < BLOCK && length < 255
               && from[before + length] == from[at + length]) length++;
        *to++ = length > 3 ? length : 0;
        *to++ = length > 3 ? at - before : from[at];
        at += length > 3 ? length : 1;
    }
}

/* Words that come again, as text has. */
static void fill(uint8_t *block, unsigned *seed) {
    for (int k = 0; k < BLOCK; k++)
        block[k] = k % 8 && k > 512 ? block[k - 8 * (drawn(seed) >> 30) - 8] : drawn(seed) >> 27;
}

/* The first thread reads blocks, and takes what the others made of them. */
static void read_and_write(unsigned seed) {
    for (long block = 0; block < rounds; block++) {
        fill(input + block * BLOCK, &seed);
        pthread_mutex_lock(&queue);
        filled++;
        pthread_cond_broadcast(&changed);
        pthread_mutex_unlock(&queue);
    }
    pthread_mutex_lock(&queue);
    while (done < rounds) pthread_cond_wait(&changed, &queue);
    pthread_mutex_unlock(&queue);
    for (long k = 0; k < rounds * 2 * BLOCK; k++) sum += output[k];
}

static void compressor(unsigned seed) {
    if (!seed) read_and_write(1);
    for (int is_made = 0;; is_made = 1) {
        pthread_mutex_lock(&queue);
        done += is_made;
        pthread_cond_broadcast(&changed);
        while (next_block == filled && filled < rounds) pthread_cond_wait(&changed, &queue);
        long block = next_block < rounds ? next_block++ : rounds;
        pthread_mutex_unlock(&queue);
        if (block == rounds) return;
        compress(input + block * BLOCK, output + block * 2 * BLOCK);
    }
}

static void table_under_locks(unsigned seed) {
    for (long n = 0; n < rounds; n++) {
        unsigned row = drawn(&seed) >> 8 & (ROWS - 1);
        pthread_mutex_lock(&locks[row % LOCKS]);
        table[row]++;
        pthread_mutex_unlock(&locks[row % LOCKS]);
    }
}

static void lock_of_an_atomic(unsigned seed) {
    for (long n = 0; n < rounds; n++) {
        while (atomic_exchange_explicit(&is_locked, 1, memory_order_acquire)) ;
        counter++;
        atomic_store_explicit(&is_locked, 0, memory_order_release);
    }
}

static const struct { const char *name; void (*work)(unsigned seed); } kinds[] = {
    {"compressor", compressor}, {"table", table_under_locks}, {"atomic_lock", lock_of_an_atomic}};
static void (*work)(unsigned seed);

static void *run(void *number) {
    work((long)number);
    finished++;
    return 0;
}

int main(int count, char **words) {
    pthread_t threads[THREADS];
    rounds = count > 2 ? atol(words[2]) : 1;
    for (size_t k = 0; count > 1 && k < sizeof kinds / sizeof *kinds; k++)
        if (!strcmp(words[1], kinds[k].name)) work = kinds[k].work;
    if (!work) return 3;
    for (int k = 0; k < LOCKS; k++) pthread_mutex_init(&locks[k], 0);
    if (work == compressor) {
        input = malloc(rounds * BLOCK);
        output = calloc(rounds, 2 * BLOCK);
    }
    for (long k = 0; k < THREADS; k++) pthread_create(&threads[k], 0, run, (void *)k);
    for (int k = 0; k < THREADS; k++) pthread_join(threads[k], 0);
    return sum < 0;
}
