/* Threads that are named in many ways. Behind each word NAMED, what the thread that writes there is called in the trace. */
#define _GNU_SOURCE
#include <pthread.h>
#include <semaphore.h>
#include <sys/prctl.h>
#define APART __attribute__((noinline))
void AnnotateThreadName(const char *file, int line, const char *name);
int shared;
static sem_t is_named;
static APART void *by_itself(void *x) {
    pthread_setname_np(pthread_self(), "decoder 1");
    shared++;                          /* NAMED decoder 1 */
    return x;
}
static APART void *by_prctl(void *x) {
    prctl(PR_SET_NAME, "more than fifteen bytes");
    shared++;                          /* NAMED more than fifte */
    return x;
}
static APART void *by_main(void *x) {
    sem_wait(&is_named);               /* a thread that has ended can't be named */
    shared++;                          /* NAMED given by main */
    return x;
}
static APART void *by_annotation(void *x) {
    AnnotateThreadName(__FILE__, __LINE__, "annotated");
    shared++;                          /* NAMED annotated */
    return x;
}
static APART void *twice(void *x) {
    pthread_setname_np(pthread_self(), "the one before");
    shared++;                          /* NAMED fifteen bytes.. */
    pthread_setname_np(pthread_self(), "fifteen bytes..");
    shared++;                          /* NAMED fifteen bytes.. */
    return x;
}
static APART void *refused(void *x) {
    pthread_setname_np(pthread_self(), "sixteen bytes...");
    shared++;                          /* NAMED refused */
    return x;
}
static APART void *emptied(void *x) {
    pthread_setname_np(pthread_self(), "");
    shared++;                          /* NAMED emptied */
    return x;
}
static APART void *hostile(void *x) {
    pthread_setname_np(pthread_self(), "|\t\n<b>!@1>#2&\"");
    shared++;                          /* NAMED ___<b>__1>_2&" */
    return x;
}
int main(void) {
    void *(*run[])(void *) = {by_itself, by_prctl, by_main, by_annotation, twice, refused, emptied, hostile};
    enum { COUNT = sizeof run / sizeof *run };
    pthread_t t[COUNT];
    prctl(PR_SET_NAME, "not main");
    for (int i = 0; i < COUNT; i++) pthread_create(&t[i], 0, run[i], 0);
    pthread_setname_np(t[2], "given by main");
    sem_post(&is_named);
    shared++;
    for (int i = 0; i < COUNT; i++) pthread_join(t[i], 0);
}
