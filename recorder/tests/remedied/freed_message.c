/* The receiver frees the message that its sender still reads. */
#include <pthread.h>
#include <stdlib.h>
#include <unistd.h>
struct message { int kind, size; };
static struct message *box;
static pthread_mutex_t lock = PTHREAD_MUTEX_INITIALIZER;
static void *receive(void *u) {
    struct message *got = 0;
    while (!got) {
        pthread_mutex_lock(&lock);
        got = box;
        pthread_mutex_unlock(&lock);
        usleep(20);
    }
    free(got);
    return u;
}
int main(void) {
    pthread_t t;
    long sent = 0;
    pthread_create(&t, 0, receive, 0);
    struct message *m = malloc(sizeof *m);
    m->kind = 1;
    m->size = 64;
#ifdef FIXED
    sent += m->size;
#endif
    pthread_mutex_lock(&lock);
    box = m;
    pthread_mutex_unlock(&lock);
#ifndef FIXED
    sent += m->size;
#endif
    pthread_join(t, 0);
    return sent == 1;
}
