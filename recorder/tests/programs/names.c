/* A global, a heap block and a variable on main's stack, each written by two threads; twice. */
#include <pthread.h>
#include <stdlib.h>
struct pair {
    int first, second;
};
struct pair table[2];
struct shared {
    struct pair *block;
    int *local;
};
static void *work(void *shared) {
    struct shared *with = shared;
    table[1].second = 1;       /* RACE */
    with->block->second = 1;   /* RACE */
    *with->local = 1;          /* RACE */
    return 0;
}
int main(void) {
    for (int round = 0; round < 2; round++) {
        int local;
        struct shared with = {malloc(sizeof *with.block), &local};
        pthread_t t;
        pthread_create(&t, 0, work, &with);
        work(&with);
        pthread_join(t, 0);
        free(with.block);
    }
}
