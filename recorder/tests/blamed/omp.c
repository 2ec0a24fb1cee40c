/* An OpenMP loop without a reduction. */
#include <stdio.h>
#include <omp.h>
int main(void) {
    static double a[400];
    double sum = 0, max = 0;
    #pragma omp parallel for num_threads(4)
    for (int i = 0; i < 400; i++) a[i] = i * 0.5;
    #pragma omp parallel for num_threads(4)
    for (int i = 0; i < 400; i++) {
        sum += a[i];
        #pragma omp critical
        if (a[i] > max) max = a[i];
    }
    printf("%f %f\n", sum, max);
    return 0;
}
