/* Many threads fork and join at the same time, while all ask the system for memory. */
#include <pthread.h>
#include <sys/mman.h>
enum { FORKERS = 8, FORKS = 60, BYTES = 1 << 20 };
void *touch(void *v) {
    char *fresh = mmap(0, BYTES, PROT_READ | PROT_WRITE, MAP_PRIVATE | MAP_ANONYMOUS | MAP_POPULATE, -1, 0);
    if (fresh != MAP_FAILED) munmap(fresh, BYTES);
    return 0;
}
void *fork_and_join(void *v) {
    for (int i = 0; i < FORKS; i++) {
        pthread_t t;
        if (pthread_create(&t, 0, touch, 0)) return v;
        touch(0);
        pthread_join(t, 0);
    }
    return 0;
}
int main(void) {
    pthread_t t[FORKERS];
    for (int i = 0; i < FORKERS; i++) pthread_create(&t[i], 0, fork_and_join, 0);
    for (int i = 0; i < FORKERS; i++) pthread_join(t[i], 0);
    return 0;
}
