#include <pthread.h>
#include <stdatomic.h>
#include <stdio.h>
#include <stdlib.h>
#include <unistd.h>
struct box { pthread_mutex_t door; long held; };
static struct box *box[3];
static void *right(void *u) { for (int i = 0; i < 9; i++) { struct box *b = box[i % 3]; pthread_mutex_lock(&b->door);
    b->held++;
    pthread_mutex_unlock(&b->door); pthread_mutex_lock(&b->door);
    b->held += 2;
    pthread_mutex_unlock(&b->door); } return u; }
static void *wrong(void *u) { for (int i = 0; i < 9; i++) { struct box *b = box[i % 3]; pthread_mutex_lock(&box[(i + 1) % 3]->door);
    b->held--; /* BLAME */
    pthread_mutex_unlock(&box[(i + 1) % 3]->door); usleep(9); } return u; }
int main(void) { pthread_t a, b; for (int i = 0; i < 3; i++) { box[i] = calloc(1, sizeof *box[i]); pthread_mutex_init(&box[i]->door, 0); } pthread_create(&a, 0, right, 0); pthread_create(&b, 0, wrong, 0); pthread_join(a, 0); pthread_join(b, 0); return 0; }
