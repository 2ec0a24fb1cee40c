/* a table grows under the lock of one of its parts */
#include <pthread.h>
#include <stdio.h>
#include <stdlib.h>
#include <string.h>
enum { LOCKS = 4 };
static pthread_mutex_t locks[LOCKS] = {PTHREAD_MUTEX_INITIALIZER, PTHREAD_MUTEX_INITIALIZER,
                                       PTHREAD_MUTEX_INITIALIZER, PTHREAD_MUTEX_INITIALIZER};
static long *cells;
static size_t size = 16;
static void grow(int key) {
    pthread_mutex_lock(&locks[key % LOCKS]);
    long *more = calloc(size * 2, sizeof *more);
    memcpy(more, cells, size * sizeof *more);
    cells = more;
    size *= 2;
    pthread_mutex_unlock(&locks[key % LOCKS]);
}
static void add(int key) {
    pthread_mutex_lock(&locks[key % LOCKS]);
    cells[key % 16]++;
    pthread_mutex_unlock(&locks[key % LOCKS]);
}
static void *work(void *arg) {
    int me = (int)(long)arg;
    for (int k = 0; k < 60; k++) {
        add(me);
        if (me == 1 && k % 20 == 10) grow(me);
    }
    return 0;
}
int main(void) {
    pthread_t t[3];
    cells = calloc(size, sizeof *cells);
    for (long k = 0; k < 3; k++) pthread_create(&t[k], 0, work, (void *)k);
    for (int k = 0; k < 3; k++) pthread_join(t[k], 0);
    printf("%zu\n", size);
    return 0;
}
