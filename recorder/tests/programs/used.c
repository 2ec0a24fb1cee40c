/* Blocks of the heap from an allocator of the program's own, which tells no type: what lies in them, where the text at an access tells what a
   pointer points to. A line ends with the names of what it accesses in blocks. */
#include <pthread.h>
#include <stdlib.h>

struct place { int row, column; };
typedef struct { long before; struct place at; } cell;
struct job { pthread_mutex_t lock; struct job *next; int done, counts[4]; struct place at; unsigned ready : 1, sent : 1; cell *cells; };
struct pair { struct place one, two; };
union either { long number; char text[8]; };
struct link { long *to; };

struct job *first, *second;
struct pair *pairs;
union either *either;
cell *cells;
long *numbers;
char *bytes;
struct link *link_to;
void *pool;

__attribute__((noinline)) static void *get(size_t bytes) { return calloc(1, bytes); }

__attribute__((noinline)) static void use_job(struct job *j, int k) {
    pthread_mutex_lock(&j->lock);                            /* IS job.lock of used.c:68 */
    j->done = 1;                                             /* IS job.done of used.c:68 */
    j->counts[k]++;                                          /* IS job.counts[2] of used.c:68 */
    (*j).at.column += k;                                     /* IS job.at.column of used.c:68 */
    j->ready = 1;                                            /* IS job.ready/sent of used.c:68 */
    pthread_mutex_unlock(&j->lock);                          /* IS job.lock of used.c:68 */
}

/* A place that doesn't begin its block is certain if several accesses tell it. */
__attribute__((noinline, noipa)) static void leave(struct place *p) {
    p->column = 8;                                           /* IS place+24.column */
    p->row = 8;                                              /* IS place+24.row */
}

/* What is used as two types has no name. */
__attribute__((noinline, noipa)) static void put_place(struct place *p) {
    p->row = 7;                                              /* IS - */
}

__attribute__((noinline, noipa)) static void put_link(struct link *l) {
    l->to = numbers;                                         /* IS - */
}

static void *use(void *argument) {
    use_job(first, 2);
    first->next->done = 2;                                   /* IS job.done of used.c:68 */
    struct place *inside = &pairs[1].two;
    inside->column = 7;                                      /* IS place+24.column */
    leave(inside);
    pairs->one.row = 7;                                      /* IS pair.one.row */
    cells[2].before = 7;                                     /* IS cell[2].before */
    first->cells->at.row = 7;                                /* IS cell.at.row */
    numbers[1] = 7;                                          /* IS - */
    ((struct place *)bytes)->row = 7;                        /* IS - */
    either->number = 7;                                      /* IS - */
    *(long *)link_to->to = 7;                                /* IS - */
    put_place(pool);
    put_link(pool);
    return argument;
}

int main(void) {
    pthread_t a, b;
    first = get(sizeof *first), second = get(sizeof *second), first->next = second;
    pairs = get(2 * sizeof *pairs), cells = first->cells = get(3 * sizeof *cells);
    either = get(sizeof *either), numbers = get(2 * sizeof *numbers), bytes = get(sizeof(struct place));
    link_to = get(sizeof *link_to), link_to->to = get(2 * sizeof(long)), pool = get(sizeof(struct link));
    pthread_mutex_init(&first->lock, 0);
    pthread_create(&a, 0, use, 0);
    pthread_create(&b, 0, use, 0);
    pthread_join(a, 0);
    return pthread_join(b, 0);
}
