/* The main thread gets memory again and again, with no other hook, until another thread has made its accesses. The word is the way. */
#include <pthread.h>
#include <stdlib.h>
#include <sys/mman.h>

enum { ACCESSES = 100, LITTLE = 4096, MUCH = 4 << 20 };
static long shared[ACCESSES];
static volatile int is_done;
#define UNSEEN __attribute__((noinline, no_sanitize_thread))
static UNSEEN void end(void) { is_done = 1; }
static UNSEEN int has_ended(void) { return is_done; }

static void map(size_t size) { munmap(mmap(0, size, PROT_READ, MAP_PRIVATE | MAP_ANONYMOUS, -1, 0), size); }
static void allocate(size_t size) {
    void *volatile block = malloc(size);
    free(block);
}

static const struct { void (*step)(size_t size); size_t size; } ways[] = {{map, LITTLE}, {allocate, LITTLE}, {map, MUCH}};

static void *make_accesses(void *unused) {
    for (int k = 0; k < ACCESSES; k++) shared[k]++;
    end();
    return 0;
}

int main(int count, char **words) {
    pthread_t t;
    int way = atoi(words[1]);
    void (*step)(size_t size) = ways[way].step;
    size_t size = ways[way].size;
    pthread_create(&t, 0, make_accesses, 0);
    while (!has_ended()) step(size);
    return pthread_join(t, 0);
}
