#include <pthread.h>
#include <stdatomic.h>
#include <stdio.h>
#include <stdlib.h>
#include <unistd.h>
static int done; static long table[4];
static void init(void) {
    if (!done) { /* BLAME */
        table[1] = 5;
        done = 1; }
}
static void *work(void *u) { init(); usleep(5); init(); return u; }
int main(void) { pthread_t a, b;  pthread_create(&a, 0, work, 0); pthread_create(&b, 0, work, 0); pthread_join(a, 0); pthread_join(b, 0); return 0; }
