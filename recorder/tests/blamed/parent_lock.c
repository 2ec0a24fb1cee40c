#include <pthread.h>
#include <stdatomic.h>
#include <stdio.h>
#include <stdlib.h>
#include <unistd.h>
struct table { pthread_mutex_t lock; long *rows; };
static struct table *table[2];
static void *add(void *u) { for (int i = 0; i < 12; i++) { struct table *t = table[i % 2]; pthread_mutex_lock(&t->lock);
    t->rows[i % 3]++;
    pthread_mutex_unlock(&t->lock); } return u; }
static void *clear(void *u) { for (int i = 0; i < 12; i++) { usleep(3);
    table[i % 2]->rows[i % 3] = 0; /* BLAME */
    } return u; }
int main(void) { pthread_t a, b; for (int i = 0; i < 2; i++) { table[i] = calloc(1, sizeof *table[i]); pthread_mutex_init(&table[i]->lock, 0); table[i]->rows = calloc(3, 8); } pthread_create(&a, 0, add, 0); pthread_create(&b, 0, clear, 0); pthread_join(a, 0); pthread_join(b, 0); return 0; }
