#include <pthread.h>
#include <unistd.h>
#define APART __attribute__((noinline)) static void
static pthread_mutex_t door = PTHREAD_MUTEX_INITIALIZER;
long balance, seen;
APART enter(int k) { if (k % 2) pthread_mutex_lock(&door); }
APART leave(int k) { if (k % 2) pthread_mutex_unlock(&door); }
APART add(void) {
    balance++; /* BLAME */
}
static void *deposit(void *unused) {
    for (int k = 0; k < 100; k++) enter(k), add(), leave(k);
    return 0;
}
static void *print(void *unused) {
    usleep(100000);
    seen = balance;
    return 0;
}
int main(void) {
    pthread_t a, b;
    pthread_create(&a, 0, deposit, 0);
    pthread_create(&b, 0, print, 0);
    pthread_join(a, 0);
    pthread_join(b, 0);
    return 0;
}
