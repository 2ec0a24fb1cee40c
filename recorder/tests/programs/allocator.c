/* An allocator of a program's own, or of a library's: it gives memory once, and knows its blocks by a word before each. */
#include <stddef.h>
#include <stdlib.h>
#include <string.h>

enum { MARK = 0x5ab1e, ALIGNED = 64 };
typedef struct { size_t size, mark; } head;
static char pool[64 << 20] __attribute__((aligned(ALIGNED)));
static size_t used;

static head *head_of(void *p) {
    head *h = (head *)p - 1;
    if (h->mark != MARK) abort();
    return h;
}

void *malloc(size_t size) {
    size_t before = ALIGNED, whole = (before + size + ALIGNED - 1) / ALIGNED * ALIGNED;
    char *block = pool + __atomic_fetch_add(&used, whole, __ATOMIC_RELAXED) + before;
    ((head *)block)[-1] = (head){size, MARK};
    return block;
}

void free(void *p) {
    if (p) head_of(p);
}

void *aligned_alloc(size_t alignment, size_t size) { return alignment <= ALIGNED ? malloc(size) : 0; }

void *calloc(size_t count, size_t size) { return malloc(count * size); }

void *realloc(void *p, size_t size) {
    void *now = malloc(size);
    if (p) memcpy(now, p, head_of(p)->size < size ? head_of(p)->size : size);
    return now;
}

size_t malloc_usable_size(void *p) { return head_of(p)->size; }
