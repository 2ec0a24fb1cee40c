/* OpenMP: tasks, their waits and groups, ordered and single sections, dynamic loops, locks. */
#include <omp.h>
#include <stdlib.h>
static long rows[8], reduced, at_end, unordered, sum, taken, shown, from_group, by_lock, in_order, linked;
static long fib(int n) {
    long a, b;
    if (n < 2) return n;
#pragma omp task shared(a)
    a = fib(n - 1);
#pragma omp task shared(b)
    b = fib(n - 2);
#pragma omp taskwait
    return a + b;
}
int main(void) {
    omp_lock_t lock;
    omp_init_lock(&lock);
    for (int round = 0; round < 3; round++) {
#pragma omp parallel num_threads(4)
        {
            long mine = 0;
#pragma omp single copyprivate(mine)
            mine = fib(9);
#pragma omp critical
            sum += mine;
#pragma omp for schedule(dynamic, 3) ordered
            for (int i = 0; i < 40; i++) {
#pragma omp ordered
                in_order = in_order * 7 + i;
            }
#pragma omp single
            {
#pragma omp taskgroup
                {
#pragma omp task
                    from_group++;
                }
                shown = from_group;
#pragma omp task depend(out : linked)
                linked++;
#pragma omp task depend(inout : linked)
                linked++;
                int begun = 0;
#pragma omp task shared(begun)
                {
#pragma omp atomic write
                    begun = 1;
                    unordered++; /* RACE: nobody waits for it, and another thread has it */
                }
                for (int seen = 0; !seen;)
#pragma omp atomic read
                    seen = begun;
                unordered++; /* RACE */
#pragma omp taskwait
            }
            omp_set_lock(&lock);
            by_lock++;
            omp_unset_lock(&lock);
#pragma omp sections
            {
#pragma omp section
                taken++;
#pragma omp section
                shown++;
            }
#pragma omp single
            taken++;
#pragma omp for reduction(task, + : reduced)
            for (int i = 0; i < 8; i++) {
                rows[i]++;
#pragma omp task in_reduction(+ : reduced)
                reduced++;
            }
#pragma omp for
            for (int i = 0; i < 8; i++) rows[7 - i] += reduced;
        }
#pragma omp parallel num_threads(4) reduction(task, + : reduced)
#pragma omp single
        for (int i = 0; i < 6; i++) {
#pragma omp task in_reduction(+ : reduced)
            reduced++;
#pragma omp task depend(inout : at_end)
            at_end++;
        }
    }
    return sum != 3 * 4 * 34 || by_lock != 12 || taken != 6 || from_group != 3 || linked != 6 || rows[7] != 69 || reduced != 42 || at_end != 18;
}
