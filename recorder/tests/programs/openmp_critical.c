/* OpenMP: who is in a critical section, has a lock, gets a part of a loop or comes first. */
#include <omp.h>
#include <stdio.h>

static long unnamed, named, locked, nested, first, order[200];

int main(void) {
    omp_lock_t lock;
    omp_nest_lock_t nest;
    omp_init_lock(&lock);
    omp_init_nest_lock(&nest);
#pragma omp parallel for num_threads(4) schedule(dynamic, 2)
    for (int k = 0; k < 200; k++) {
#pragma omp critical
        order[unnamed++] = k;
#pragma omp critical(other)
        named += k % 7 * named % 1000003 + omp_get_thread_num();
        omp_set_lock(&lock);
        locked++;
        omp_unset_lock(&lock);
        while (!omp_test_nest_lock(&nest));
        omp_set_nest_lock(&nest);
        nested++;
        omp_unset_nest_lock(&nest);
        omp_unset_nest_lock(&nest);
    }
#pragma omp parallel num_threads(4)
    {
#pragma omp single
        first = omp_get_thread_num();
#pragma omp barrier
#pragma omp critical
        unnamed += first;
    }
    for (int k = 0; k < 200; k++) printf("%ld ", order[k]);
    printf("%ld %ld %ld %ld\n", unnamed, named, locked, nested);
    return 0;
}
