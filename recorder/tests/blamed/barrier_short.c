/* A barrier that one phase forgets: the neighbour's cell is read before the next barrier. */
#include <pthread.h>
static pthread_barrier_t b;
static int cell[2], sum[2];
static void *work(void *it) {
    int me = (int)(long)it;
    cell[me] = me + 1;
    pthread_barrier_wait(&b);
    sum[me] = cell[0] + cell[1];
    cell[me] = 9;
    return 0;
}
int main(void) {
    pthread_t t;
    pthread_barrier_init(&b, 0, 2);
    pthread_create(&t, 0, work, (void *)1);
    work(0);
    pthread_join(t, 0);
    return sum[0] == 99;
}
