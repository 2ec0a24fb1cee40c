#include <pthread.h>
#include <stdatomic.h>
#include <stdio.h>
#include <stdlib.h>
#include <unistd.h>
static long *box;
static void *use(void *u) { for (int i = 0; i < 9; i++) {
    (*box)++;
    usleep(9); } return u; }
int main(void) { pthread_t a; box = calloc(1, 64); pthread_create(&a, 0, use, 0); usleep(300);
    free(box); /* BLAME */
    pthread_join(a, 0); return 0; }
