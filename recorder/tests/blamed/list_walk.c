#include <pthread.h>
#include <stdatomic.h>
#include <stdio.h>
#include <stdlib.h>
#include <unistd.h>
static pthread_mutex_t m = PTHREAD_MUTEX_INITIALIZER, m2 = PTHREAD_MUTEX_INITIALIZER;
struct node { struct node *next; long v; } *head;
static void *push(void *u) { for (int i = 0; i < 9; i++) { struct node *n = malloc(sizeof *n); n->v = i; pthread_mutex_lock(&m);
    n->next = head;
    head = n;
    pthread_mutex_unlock(&m); usleep(5); } return u; }
static void *walk(void *u) { long s = 0; for (int i = 0; i < 9; i++) { usleep(5);
    for (struct node *n = head; n; n = n->next) s += n->v; /* BLAME */
    } printf("%ld\n", s); return u; }
int main(void) { pthread_t a, b;  pthread_create(&a, 0, push, 0); pthread_create(&b, 0, walk, 0); pthread_join(a, 0); pthread_join(b, 0); return 0; }
