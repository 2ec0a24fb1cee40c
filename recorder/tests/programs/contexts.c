/* A coroutine that is made by makecontext, and resumed by two functions in turn; and a context that is resumed twice. Behind each
   word IN, the stacks of its line: what is known, the innermost first. */
#include <pthread.h>
#include <stdlib.h>
#include <ucontext.h>

#define APART __attribute__((noinline))
int shared;
static __thread ucontext_t outer, coroutine, twice;

static APART void yield(void) { swapcontext(&coroutine, &outer); }
static APART void leaf(void) {
    shared++; /* IN leaf deep body, leaf deep */
}
static APART void deep(void) {
    leaf();
    yield();
    shared++; /* IN deep */
    leaf();
    yield();
    shared++; /* IN deep */
}
static void body(void) {
    deep();
    shared++; /* IN body */
    deep();
}
static APART void resume(void) { swapcontext(&outer, &coroutine); }
static APART void first(void) {
    shared++; /* IN first run */
    resume();
    shared++; /* IN first */
}
static APART void second(void) {
    shared += 2; /* IN second run */
    resume();
    shared += 2; /* IN second */
}
static APART void again(void) {
    volatile int times = 0;
    swapcontext(&twice, &twice); /* saves it first, so it goes on here */
    shared++; /* IN again */
    if (times++ < 2) setcontext(&twice);
    if (times != 3) abort();
}
static void *run(void *x) {
    getcontext(&coroutine);
    coroutine.uc_stack.ss_sp = malloc(1 << 16);
    coroutine.uc_stack.ss_size = 1 << 16;
    coroutine.uc_link = &outer;
    makecontext(&coroutine, body, 0);
    first();
    second();
    first();
    second();
    second();
    again();
    return x;
}
int main(void) {
    pthread_t t, u;
    pthread_create(&t, 0, run, 0);
    pthread_create(&u, 0, run, 0);
    pthread_join(t, 0);
    pthread_join(u, 0);
}
