/* OpenMP's taskloop, whose order the recorder doesn't see. */
static int x[100];
int main(void) {
#pragma omp parallel num_threads(2)
#pragma omp single
#pragma omp taskloop
    for (int i = 0; i < 100; i++) x[i]++;
    return x[99] != 1;
}
