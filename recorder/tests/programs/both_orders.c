/* Two threads write two variables, each at a line of its own; each variable is written by another thread first. So the lines race
   in both orders. What has the threads take turns orders nothing. */
#include <pthread.h>
#include <stdatomic.h>

int x, y;
atomic_int turn;

static void take_turn(int number) {
    while (atomic_load_explicit(&turn, memory_order_relaxed) < number);
}

static void end_turn(int number) {
    atomic_store_explicit(&turn, number + 1, memory_order_relaxed);
}

static void *one(void *arg) {
    int *written[] = {&x, &y};
    for (int i = 0; i < 2; i++) {
        take_turn(2 * i);
        *written[i] = 1;
        end_turn(2 * i);
    }
    return arg;
}

static void *other(void *arg) {
    int *written[] = {&y, &x};
    for (int i = 0; i < 2; i++) {
        take_turn(2 * i + 1);
        *written[i] = 2;
        end_turn(2 * i + 1);
    }
    return arg;
}

int main(void) {
    pthread_t a, b;
    pthread_create(&a, 0, one, 0);
    pthread_create(&b, 0, other, 0);
    pthread_join(a, 0);
    return pthread_join(b, 0);
}
