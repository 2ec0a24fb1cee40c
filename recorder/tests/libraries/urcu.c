/* What liburcu orders: blocks that readers find by a pointer, and that are freed when no reader has them. One counter has nothing. */
#include <pthread.h>
#include <stdlib.h>
#include <urcu.h>

struct block { long value; struct rcu_head head; };
static void *known;
static long racy;

static void *reads(void *unused) {
    rcu_register_thread();
    for (int k = 0; k < 40; k++) {
        rcu_read_lock();
        struct block *block = rcu_dereference(known);
        if (block && block->value < 0) abort();
        rcu_read_unlock();
    }
    racy++; /* RACE */
    rcu_unregister_thread();
    return 0;
}

static void free_later(struct rcu_head *head) { free(caa_container_of(head, struct block, head)); }

static struct block *make(long value) {
    struct block *block = malloc(sizeof *block);
    block->value = value;
    return block;
}

int main(void) {
    pthread_t readers[3];
    rcu_register_thread();
    for (int k = 0; k < 3; k++) pthread_create(&readers[k], 0, reads, 0);
    for (long k = 1; k < 8; k++) {
        struct block *old = rcu_xchg_pointer(&known, make(k));
        if (k % 2 && old) call_rcu(&old->head, free_later);
        else {
            synchronize_rcu();
            free(old);
        }
    }
    rcu_assign_pointer(known, 0);
    for (int k = 0; k < 3; k++) pthread_join(readers[k], 0);
    rcu_barrier();
    rcu_unregister_thread();
    return racy < 0;
}
