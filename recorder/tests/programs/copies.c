/* Threads copy structures with values of their own to a shared one, by code with long computation between the hooks of the
   write and of the read, and then read it; the values read are printed. test_order.py compares them with the trace. */
#include <pthread.h>
#include <stdio.h>
enum { N = 4, K = 2000 };              /* as in test_order.py */
struct pair { int step, thread; };
struct pair shared[60][60], own[60][60];
static long got[N][K];
static void *work(void *me_) {
    long me = (long)me_;
    for (int k = 0; k < K; k++) {
        int one = 1, three = 3;
        own[me][3].step = k;
        own[me][3].thread = me;
        shared[one][three] = own[me][three];
        got[me][k] = *(volatile long *)&shared[1][3];
    }
    return 0;
}
int main(void) {
    pthread_t t[N];
    for (long i = 0; i < N; i++) pthread_create(&t[i], 0, work, (void *)i);
    for (int i = 0; i < N; i++) pthread_join(t[i], 0);
    for (int i = 0; i < N; i++)
        for (int k = 0; k < K; k++) printf("%d %ld\n", i, got[i][k]);
    return 0;
}
