// A function that is done once comes before what each thread does after it, and before the next try if it throws.
#include <mutex>
#include <pthread.h>
#include <thread>

static std::once_flag thrown;
static pthread_once_t done = PTHREAD_ONCE_INIT;
static int tries, made, racy;

static void make() { made = 1; }
static void fail() {
    if (++tries == 1) throw 1;
    tries++;
}
static void work() {
    racy++; // RACE
    try {
        std::call_once(thrown, fail);
    } catch (int) {}
    for (int k = 0; k < 9; k++) pthread_once(&done, make);
    if (made != 1) tries = -1;
}

int main() {
    std::thread a(work), b(work), c(work);
    a.join();
    b.join();
    c.join();
    return tries != 3;
}
