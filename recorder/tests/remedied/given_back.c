/* A buffer is written after it went back to its pool. */
#include <pthread.h>
#include <stdlib.h>
struct buffer { int length; struct buffer *next; };
static struct buffer *spare;
static pthread_mutex_t m = PTHREAD_MUTEX_INITIALIZER;
static struct buffer *take(void) {
    pthread_mutex_lock(&m);
    struct buffer *b = spare;
    if (b) spare = b->next;
    pthread_mutex_unlock(&m);
    return b;
}
static void give(struct buffer *b) {
    pthread_mutex_lock(&m);
    b->next = spare;
    spare = b;
    pthread_mutex_unlock(&m);
}
static void *work(void *u) {
    for (int n = 0; n < 80; n++) {
        struct buffer *b = take();
        if (!b) continue;
        b->length = n;
#ifdef FIXED
        b->length = 0;
#endif
        give(b);
#ifndef FIXED
        b->length = 0;
#endif
    }
    return u;
}
int main(void) {
    pthread_t one, two;
    for (int k = 0; k < 2; k++) give(calloc(1, sizeof(struct buffer)));
    pthread_create(&one, 0, work, 0);
    pthread_create(&two, 0, work, 0);
    pthread_join(one, 0);
    pthread_join(two, 0);
    return 0;
}
