/* OpenMP: loops, a reduction, a critical section and a barrier order what they should. */
#include <omp.h>
static long bad, good;
static double x[1000];
int main(void) {
#pragma omp parallel for num_threads(4)
    for (int i = 0; i < 1000; i++) {
        x[i] = i * 0.5;
        if (i % 100 == 0) bad++; /* RACE */
#pragma omp critical
        if (i % 50 == 0) good++;
    }
    double s = 0;
#pragma omp parallel for reduction(+ : s) num_threads(4)
    for (int i = 0; i < 1000; i++) s += x[i] + x[999 - i];
#pragma omp parallel num_threads(4)
    {
        x[omp_get_thread_num()] = 1;
#pragma omp barrier
        s = s + 0 * x[(omp_get_thread_num() + 1) % 4]; /* RACE: s */
    }
    return good != 20;
}
