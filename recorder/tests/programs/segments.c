/* So many rounds as its word says, each of one thread and then of the other; with 0 until its input ends. Two rounds have two races, and
   segments of the record end while a round holds a lock. */
#include <pthread.h>
#include <stdlib.h>
#include <unistd.h>
int racing, locked, guarded, given, *block;
static pthread_mutex_t m = PTHREAD_MUTEX_INITIALIZER, other = PTHREAD_MUTEX_INITIALIZER;
static pthread_rwlock_t rw = PTHREAD_RWLOCK_INITIALIZER;
static int ends, rounds = 20, turn;

/* Orders nothing. */
static void wait_for_turn(int of) {
    while (__atomic_load_n(&turn, __ATOMIC_RELAXED) != of && !__atomic_load_n(&ends, __ATOMIC_RELAXED)) ;
}

static void fill(void) {
    for (int i = 0; i < 50; i++) {
        pthread_mutex_lock(&other);
        pthread_mutex_unlock(&other);
    }
}

static void *work(void *writes) {
    pthread_setname_np(pthread_self(), writes ? "writer" : "reader");
    for (int i = 0; (!rounds || i < rounds) && !__atomic_load_n(&ends, __ATOMIC_RELAXED); i++) {
        wait_for_turn(!!writes);
        racing++; /* RACE */
        block[1]++; /* RACE */
        pthread_mutex_lock(&m);
        fill();
        locked++;
        pthread_mutex_unlock(&m);
        if (writes) pthread_rwlock_wrlock(&rw);
        else pthread_rwlock_rdlock(&rw);
        fill();
        if (writes) guarded++;
        else given = guarded;
        pthread_rwlock_unlock(&rw);
        __atomic_store_n(&turn, !writes, __ATOMIC_RELAXED);
    }
    return 0;
}

int main(int count, char **words) {
    pthread_t a, b;
    char c;
    if (count > 1) rounds = atoi(words[1]);
    block = calloc(4, sizeof *block);
    pthread_create(&a, 0, work, &a);
    pthread_create(&b, 0, work, 0);
    while (!rounds && read(0, &c, 1) > 0) ;
    __atomic_store_n(&ends, !rounds, __ATOMIC_RELAXED);
    pthread_join(a, 0);
    pthread_join(b, 0);
    return 0;
}
