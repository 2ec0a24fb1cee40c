/* Fibers that the program tells of: one that a thread makes in a function and resumes in another, and one that the first one makes.
   Behind each word IN, the stacks of its line, the innermost first: further out than a fiber's own functions is where it was made. */
#include <pthread.h>
#include <stdlib.h>
#include <ucontext.h>
void *__tsan_get_current_fiber(void), *__tsan_create_fiber(unsigned);
void __tsan_switch_to_fiber(void *, unsigned), __tsan_destroy_fiber(void *);

#define APART __attribute__((noinline))
typedef struct { void *fiber; ucontext_t context; } place;
int shared;
static __thread place of_thread, first, second;

static APART void pass(place *from, place *to) {
    __tsan_switch_to_fiber(to->fiber, 0);
    swapcontext(&from->context, &to->context);
}
static APART void make(place *new, void (*body)(void)) {
    new->fiber = __tsan_create_fiber(0);
    getcontext(&new->context);
    new->context.uc_stack.ss_sp = malloc(1 << 16);
    new->context.uc_stack.ss_size = 1 << 16;
    makecontext(&new->context, body, 0);
}
static APART void inner_leaf(void) {
    shared++; /* IN inner_leaf inner_body __tsan_create_fiber? make outer_body __tsan_create_fiber? make hire run */
}
static APART void inner_body(void) {
    inner_leaf();
    pass(&second, &first);
}
static APART void leaf(int n) {
    if (n) leaf(n - 1);
    else pass(&first, &of_thread);
    shared++; /* IN leaf outer_body __tsan_create_fiber? make hire run, leaf leaf outer_body __tsan_create_fiber? make hire run */
}
static APART void outer_body(void) {
    shared++; /* IN outer_body __tsan_create_fiber? make hire run */
    make(&second, inner_body);
    leaf(1);
    pass(&first, &second);
    leaf(0);
    pass(&first, &of_thread);
}
static APART void hire(void) { make(&first, outer_body); }
static APART void pump(void) {
    pass(&of_thread, &first);
    shared++; /* IN pump run */
}
static void *run(void *x) {
    of_thread.fiber = __tsan_get_current_fiber();
    hire();
    pump();
    pump();
    pump();
    __tsan_destroy_fiber(first.fiber);
    __tsan_destroy_fiber(second.fiber);
    shared++; /* IN run */
    return x;
}
int main(void) {
    pthread_t t, u;
    pthread_create(&t, 0, run, 0);
    pthread_create(&u, 0, run, 0);
    pthread_join(t, 0);
    pthread_join(u, 0);
}
