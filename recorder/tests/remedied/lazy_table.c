/* A table is made at its first use, by whoever comes. */
#include <pthread.h>
#include <stdlib.h>
static int *table;
static pthread_mutex_t lock = PTHREAD_MUTEX_INITIALIZER;
static int entry(int n) {
#ifdef FIXED
    pthread_mutex_lock(&lock);
#endif
    if (!table) {
        int *new = malloc(8 * sizeof *new);
        for (int i = 0; i < 8; i++) new[i] = i * i;
        table = new;
    }
    int found = table[n];
#ifdef FIXED
    pthread_mutex_unlock(&lock);
#endif
    return found;
}
static void *run(void *u) { return entry(3) ? u : 0; }
int main(void) {
    pthread_t t[3];
    for (int i = 0; i < 3; i++) pthread_create(&t[i], 0, run, 0);
    for (int i = 0; i < 3; i++) pthread_join(t[i], 0);
    return 0;
}
