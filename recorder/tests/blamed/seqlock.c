/* A seqlock whose data is read plainly; its version is right. */
#include <pthread.h>
#include <stdatomic.h>
static atomic_uint version;
static int data;
static void *writer(void *u) {
    for (int k = 0; k < 20; k++) {
        atomic_fetch_add_explicit(&version, 1, memory_order_acq_rel);
        data = k;
        atomic_fetch_add_explicit(&version, 1, memory_order_release);
    }
    return u;
}
int main(void) {
    pthread_t t;
    int found = 0;
    pthread_create(&t, 0, writer, 0);
    for (int k = 0; k < 20; k++) {
        unsigned before = atomic_load_explicit(&version, memory_order_acquire);
        int seen = data;
        if (!(before & 1) && before == atomic_load_explicit(&version, memory_order_acquire)) found += seen;
    }
    pthread_join(t, 0);
    return found == 99999;
}
