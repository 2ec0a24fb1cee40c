// Each object has its own lock. main writes `state` always under the object's lock, the workers read it without.
#include <pthread.h>
#include <stdio.h>
#include <stdlib.h>
#include <unistd.h>
struct object { pthread_mutex_t lock; int state; };
static int cancelled(struct object *o) {
    return o->state; /* No need to be locked. */
}
static void *work(void *u) { long n = 0; while (!cancelled(u)) { usleep(100); n++; } return (void *)n; }
int main(void) { pthread_t t[3]; struct object *o[3];
    for (int i = 0; i < 3; i++) { o[i] = calloc(1, sizeof **o); pthread_mutex_init(&o[i]->lock, 0); pthread_create(&t[i], 0, work, o[i]); }
    usleep(1000);
    for (int i = 0; i < 3; i++) { pthread_mutex_lock(&o[i]->lock); o[i]->state = 1; pthread_mutex_unlock(&o[i]->lock); }
    for (int i = 0; i < 3; i++) pthread_join(t[i], 0);
    return 0; }
