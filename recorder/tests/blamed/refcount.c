#include <pthread.h>
#include <stdatomic.h>
#include <stdio.h>
#include <stdlib.h>
#include <unistd.h>
struct thing { atomic_int users; long value; };
static struct thing *thing; static long sums[2];
static void drop(struct thing *t) {
    if (atomic_fetch_sub_explicit(&t->users, 1, memory_order_relaxed) == 1) /* BLAME */
        free(t);
}
static void *use(void *u) { thing->value == 3 ? sums[(long)u]++ : 0; usleep(9 + 50 * (long)u); drop(thing); return u; }
int main(void) { pthread_t a, b; thing = calloc(1, sizeof *thing); thing->users = 2; pthread_create(&a, 0, use, 0); pthread_create(&b, 0, use, (void *)1); pthread_join(a, 0); pthread_join(b, 0); return 0; }
