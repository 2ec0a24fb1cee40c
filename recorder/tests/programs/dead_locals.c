/* A local lies where other functions had theirs before it, and have them after it. */
#include <pthread.h>
#include <stdio.h>
#include <unistd.h>

static void *set(void *p) {
    usleep(1000);
    *(volatile long *)p = 1; /* RACE */
    return 0;
}

static void *idle(void *p) {
    usleep(300000);
    return p;
}

__attribute__((noinline)) static void fill(int *v) {
    for (int i = 0; i < 64; i++) v[i] = i;
}

__attribute__((noinline)) static long stamp(int depth) {
    int v[64];
    fill(v);
    return depth ? stamp(depth - 1) + v[5] : v[3];
}

__attribute__((noinline)) static void wait_for(void) {
    volatile long flag = 0; /* BEGIN */
    pthread_t t;
    pthread_create(&t, 0, set, (void *)&flag);
    while (!flag) usleep(1); /* RACE */
    pthread_join(t, 0);
}

int main(void) {
    pthread_t keep;
    pthread_create(&keep, 0, idle, 0);
    long sum = stamp(8);
    wait_for();
    sum += stamp(8);
    printf("%ld\n", sum);
    return pthread_join(keep, 0);
}
