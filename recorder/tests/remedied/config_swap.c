/* A new configuration is published by a relaxed pointer. */
#include <pthread.h>
#include <stdatomic.h>
#include <stdlib.h>
#include <unistd.h>
#ifdef FIXED
#define STORE memory_order_release
#else
#define STORE memory_order_relaxed
#endif
struct config { int level, limit; };
static _Atomic(struct config *) current;
static void *serve(void *u) {
    long sum = 0;
    for (int i = 0; i < 60; i++, usleep(20)) {
        struct config *c = atomic_load_explicit(&current, memory_order_acquire);
        if (c) sum += c->level + c->limit;
    }
    return sum ? u : 0;
}
static void load(int level) {
    struct config *c = malloc(sizeof *c);
    c->level = level;
    c->limit = level * 10;
    atomic_store_explicit(&current, c, STORE);
}
int main(void) {
    pthread_t t[2];
    for (int i = 0; i < 2; i++) pthread_create(&t[i], 0, serve, 0);
    for (int level = 1; level < 4; level++, usleep(200)) load(level);
    for (int i = 0; i < 2; i++) pthread_join(t[i], 0);
    return 0;
}
