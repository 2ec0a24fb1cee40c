/* Memory that is mapped where other memory was is new, also if nobody may access it at first. */
#include <pthread.h>
#include <stdatomic.h>
#include <stdlib.h>
#include <sys/mman.h>

enum { BYTES = 1 << 16 };
static char *_Atomic was;              /* it orders nothing */
static int later;

static void *work(void *unused) {
    char *p = mmap(0, BYTES, PROT_READ | PROT_WRITE, MAP_PRIVATE | MAP_ANONYMOUS, -1, 0);
    p[5] = 1;
    later++;                           /* RACE */
    munmap(p, BYTES);
    atomic_store_explicit(&was, p, memory_order_relaxed);
    return 0;
}

int main(void) {
    pthread_t t;
    char *p;
    pthread_create(&t, 0, work, 0);
    while (!(p = atomic_load_explicit(&was, memory_order_relaxed))) {}
    if (mmap(p, BYTES, PROT_NONE, MAP_PRIVATE | MAP_ANONYMOUS | MAP_FIXED, -1, 0) != p) abort();
    if (mprotect(p, BYTES, PROT_READ | PROT_WRITE)) abort();
    p[5] = 2;
    later++;                           /* RACE */
    pthread_join(t, 0);
    return 0;
}
