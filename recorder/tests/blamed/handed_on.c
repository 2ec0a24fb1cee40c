/* xfree only hands on to free, and give_back to that: the line is the one that gives the block back */
#include <pthread.h>
#include <stdlib.h>
#include <unistd.h>
struct job { long id, done; };
static void *xmalloc(size_t size) {
    void *p = malloc(size);
    if (!p) abort();
    return p;
}
static void xfree(void *p) { free(p); }
static void give_back(struct job *job) { xfree(job); }
static void *work(void *job) {
    for (int i = 0; i < 9; i++) {
        ((struct job *)job)->done++;
        usleep(9);
    }
    return 0;
}
int main(void) {
    struct job *job = xmalloc(sizeof *job);
    pthread_t thread;
    job->done = 0;
    pthread_create(&thread, 0, work, job);
    usleep(300);
    give_back(job); /* BLAME */
    pthread_join(thread, 0);
    return 0;
}
