/* OpenMP's teams, target regions and events, which the recorder doesn't follow. */
#include <omp.h>
static int x, y, z;
int main(void) {
#pragma omp teams num_teams(3)
    x++;
#pragma omp target map(tofrom: y) nowait
    y++;
#pragma omp target map(tofrom: y)
    y++;
#pragma omp taskwait
#pragma omp parallel num_threads(2)
#pragma omp single
    {
        omp_event_handle_t event;
#pragma omp task detach(event)
        {
            z++;
            omp_fulfill_event(event);
        }
#pragma omp taskwait
        z++;
    }
    return x + y < 3 || z != 2;
}
