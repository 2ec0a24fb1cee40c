#include <pthread.h>
#include <stdio.h>
#include <stdlib.h>
struct stats { long requests, errors, bytes; pthread_mutex_t lock; };
static struct stats stats = { .lock = PTHREAD_MUTEX_INITIALIZER };
static int parse(int n) { return n % 7 == 3 ? -1 : n * 3; }
static void handle(int n) {
    int got = parse(n);
    if (got < 0) {
        stats.errors++;
        return;
    }
    pthread_mutex_lock(&stats.lock);
    stats.requests++;
    stats.bytes += got;
    pthread_mutex_unlock(&stats.lock);
}
static void report(void) {
    pthread_mutex_lock(&stats.lock);
    printf("%ld requests, %ld errors, %ld bytes\n", stats.requests, stats.errors, stats.bytes);
    pthread_mutex_unlock(&stats.lock);
}
static void *worker(void *arg) {
    for (int i = 0; i < 40; i++)
        handle(i + (int)(long)arg);
    report();
    return NULL;
}
int main(void) {
    pthread_t t[3];
    for (long i = 0; i < 3; i++)
        pthread_create(&t[i], NULL, worker, (void *)i);
    for (int i = 0; i < 3; i++)
        pthread_join(t[i], NULL);
    return 0;
}
