/* A program in C that loads a library in C++ while threads run, and calls it from two. The race is in plugin.cc. */
#include <dlfcn.h>
#include <pthread.h>
#include <stdio.h>
static void (*add)(long);
static void *work(void *unused) {
    for (int i = 0; i < 10; i++) add(1);
    return 0;
}
static void *idle(void *unused) { return 0; }
int main(int count, char **words) {
    pthread_t a, b, c;
    pthread_create(&c, 0, idle, 0);
    void *library = dlopen(words[1], RTLD_NOW);
    if (!library) return puts(dlerror()), 1;
    add = (void (*)(long))dlsym(library, "plugin_add");
    pthread_create(&a, 0, work, 0);
    pthread_create(&b, 0, work, 0);
    pthread_join(a, 0);
    pthread_join(b, 0);
    pthread_join(c, 0);
    return 0;
}
