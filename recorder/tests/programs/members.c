/* Variables with members, each written by two threads. Behind each word AT, what is written there, as the trace has it. */
#include <pthread.h>
#include <stdatomic.h>
#include <string.h>
typedef struct { int x, y; } point;
struct queue {
    pthread_mutex_t lock;
    const struct queue *next;
    struct { long head; volatile long tail; } of;
    struct { char kind; };
    point corners[2][3];
    union { int number; float real; } value;
    unsigned few : 3, more : 5;
    char name[8];
};
extern struct queue queue;
struct queue queue;
point points[4];
int table[2][3], plain;
struct { int first, second; } whole;
volatile size_t size = sizeof whole;
static void *work(void *x) {
    queue.next = x;                    /* AT queue.next */
    queue.of.head = 1;                 /* AT queue.of.head */
    queue.of.tail = 1;                 /* AT queue.of.tail */
    queue.kind = 1;                    /* AT queue.kind */
    queue.corners[1][2].y = 1;         /* AT queue.corners[1][2].y */
    queue.value.number = 1;            /* AT queue.value */
    queue.more = 1;                    /* AT queue.few/more */
    queue.name[3] = 1;                 /* AT queue.name[3] */
    points[0].x = 1;                   /* AT points[0].x */
    points[3].y = 1;                   /* AT points[3].y */
    table[1][2] = 1;                   /* AT table[1][2] */
    *(volatile short *)((char *)&table[0][1] + 2) = 1; /* AT table[0][1]+2 */
    size = sizeof whole;               /* AT size */
    memset(&whole, 0, size);           /* AT whole, size */
    plain = 1;                         /* AT plain */
    static volatile int last;
    last = 1;                          /* AT work::last */
    return 0;
}
int main(void) {
    pthread_t t;
    pthread_create(&t, 0, work, 0);
    work(0);
    pthread_mutex_lock(&queue.lock);   /* AT queue.lock */
    plain = 1;                         /* AT plain */
    pthread_mutex_unlock(&queue.lock);
    pthread_join(t, 0);
}
