/* An object that two threads write, from malloc in one of many ways. Behind IS stands what is told of it. */
#include <pthread.h>
#include <stdlib.h>
#include <string.h>

struct place { int row, count; };
struct job { struct job *next; int count; struct place at; struct job *others[4]; char text[]; };
#define NEW(type) ((type *)malloc(sizeof(type)))
static struct job *shared, **table;

__attribute__((noinline)) static void *get(size_t bytes) { return memset(malloc(bytes), 0, bytes); }

static void make(void) {
    switch (FORM) {
    case 1: shared = malloc(sizeof *shared); break;
    case 2: shared = calloc(1, sizeof(struct job)); break;
    case 3: shared = get(sizeof *shared); break;
    case 4: shared = NEW(struct job); break;
    case 5: shared = get(4 * sizeof *shared); break;
    case 6: shared = get(sizeof *shared); shared->next = NEW(struct job); break;
    case 7: shared = get(sizeof *shared + 20); break;
    case 8: shared = get(sizeof *shared); break;
    case 9: shared = realloc(get(8), sizeof *shared); break;
    case 10: shared = aligned_alloc(64, 128); break;
    case 11: shared = get(sizeof *shared); shared->others[3] = get(sizeof *shared); break;
    case 12: table = get(sizeof *table); shared = table[0] = get(sizeof(struct job)); break;
    }
}

static void *use(void *argument) {
    struct job *j = argument;
    switch (FORM) {
    case 1: shared->count = 1; break;                        /* IS job.count */
    case 2: shared->count = 1; break;                        /* IS job.count */
    case 3: shared->count = 1; break;                        /* IS job.count */
    case 4: shared->count = 1; break;                        /* IS job.count */
    case 5: shared[2].count = 1; break;                      /* IS job[2].count */
    case 6: shared->next->count = 1; break;                  /* IS job.count */
    case 7: shared->count = 1; break;                        /* IS job.count */
    case 8: shared->at.count = 1; break;                     /* IS job.at.count */
    case 9: shared->count = 1; break;                        /* IS job.count */
    case 10: shared->count = 1; break;                       /* IS job.count */
    case 11: shared->others[3]->count = 1; break;            /* IS job.count */
    case 12: j->count = 1; break;                            /* IS job.count */
    }
    return j;
}

int main(void) {
    pthread_t t;
    make();
    pthread_create(&t, 0, use, shared);
    use(shared);
    return pthread_join(t, 0);
}
