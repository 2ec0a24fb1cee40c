#include <pthread.h>
#include <stdatomic.h>
#include <stdio.h>
#include <stdlib.h>
#include <unistd.h>
struct session { pthread_mutex_t lock; long bytes; struct session *next; };
static struct session *all;
static void *serve(void *u) { for (int i = 0; i < 9; i++) for (struct session *s = all; s; s = s->next) { pthread_mutex_lock(&s->lock);
    s->bytes += 10;
    pthread_mutex_unlock(&s->lock); } return u; }
static void *stat(void *u) { long n = 0; for (int i = 0; i < 5; i++) { usleep(4); for (struct session *s = all; s; s = s->next)
    n += s->bytes; /* BLAME */
    } printf("%ld\n", n); return u; }
int main(void) { pthread_t a, b; for (int i = 0; i < 4; i++) { struct session *s = calloc(1, sizeof *s); pthread_mutex_init(&s->lock, 0); s->next = all; all = s; } pthread_create(&a, 0, serve, 0); pthread_create(&b, 0, stat, 0); pthread_join(a, 0); pthread_join(b, 0); return 0; }
