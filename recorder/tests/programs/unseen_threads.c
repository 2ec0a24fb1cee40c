/* Threads by the C library's own pthread_create, which the recorder doesn't see begin. */
#define _GNU_SOURCE
#include <dlfcn.h>
#include <pthread.h>

typedef int creator(pthread_t *, const pthread_attr_t *, void *(*)(void *), void *);
static int n;

static void *count(void *p) {
    n++;
    return p;
}

int main(void) {
    pthread_t one, two;
    creator *create = (creator *)dlsym(dlopen("libc.so.6", RTLD_NOW), "pthread_create");
    create(&one, 0, count, 0);
    create(&two, 0, count, 0);
    pthread_join(one, 0);
    return pthread_join(two, 0);
}
