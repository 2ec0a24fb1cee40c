/* A crash that comes in some runs: main looks at `order` with the lock, and follows it later without it.
   In other runs the worker has cancelled the order before main looks. */
#include <pthread.h>
#include <stdio.h>
#include <unistd.h>

static pthread_mutex_t door = PTHREAD_MUTEX_INITIALIZER;
static pthread_barrier_t start;
static long steps;
static int price = 7, *order = &price;

static void work(int count) {
    for (int i = 0; i < count; i++) {
        pthread_mutex_lock(&door);
        steps++;
        pthread_mutex_unlock(&door);
    }
}

static void *cancel(void *unused) {
    pthread_barrier_wait(&start);
    work(20);
    pthread_mutex_lock(&door);
    order = NULL;
    pthread_mutex_unlock(&door);
    return unused;
}

int main(void) {
    pthread_t worker;
    pthread_barrier_init(&start, NULL, 2);
    pthread_create(&worker, NULL, cancel, NULL);
    pthread_barrier_wait(&start);
    work(60);
    pthread_mutex_lock(&door);
    int has_order = order != NULL;
    pthread_mutex_unlock(&door);
    usleep(200000);
    if (has_order)
        printf("%d\n", *order);          /* the lock isn't held here */
    pthread_join(worker, NULL);
    return 0;
}
