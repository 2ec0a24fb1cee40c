/* A realloc is a free, unless it fails: then the block stays as it is. */
#include <pthread.h>
#include <stdint.h>
#include <stdlib.h>

static int *kept;
static volatile size_t too_much = SIZE_MAX / 2;

static void *work(void *given_) {
    int *given = given_;
    return kept[5] == 7 && given[5] != 7 ? 0 : given_; /* RACE */
}

int main(void) {
    pthread_t t;
    kept = calloc(100, sizeof *kept);
    kept[5] = 7;
    int *given = calloc(100, sizeof *given);
    pthread_create(&t, 0, work, given);
    if (realloc(kept, too_much)) return 1;
    given = realloc(given, 100000 * sizeof *given); /* RACE */
    pthread_join(t, 0);
    int last = kept[5];
    free(kept);
    free(given);
    return last != 7;
}
