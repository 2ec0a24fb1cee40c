/* Loads one plugin, uses it and closes it; then another, of the same form, which two threads use. */
#include <dlfcn.h>
#include <pthread.h>
#include <stdio.h>
static void *work(void *hit) {
    ((void (*)(void))hit)();
    return 0;
}
static int use(const char *path, int threads) {
    pthread_t t, u;
    void *plugin = dlopen(path, RTLD_NOW);
    if (!plugin) return puts(dlerror()), 1;
    void *hit = dlsym(plugin, "hit");
    pthread_create(&t, 0, work, hit);
    if (threads > 1) pthread_create(&u, 0, work, hit);
    pthread_join(t, 0);
    if (threads > 1) pthread_join(u, 0);
    return dlclose(plugin);
}
int main(int count, char **words) { return use(words[1], 1) || use(words[2], 2); }
