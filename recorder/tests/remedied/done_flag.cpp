// The result is ready when `done` is set, which is relaxed on both sides.
#include <atomic>
#include <cstdio>
#include <thread>
#ifdef FIXED
#define STORE std::memory_order_release
#define LOAD std::memory_order_acquire
#else
#define STORE std::memory_order_relaxed
#define LOAD std::memory_order_relaxed
#endif
static double result;
static std::atomic<bool> done{false};
static void compute() {
    double sum = 0;
    for (int i = 1; i < 100; i++) sum += 1.0 / i;
    result = sum;
    done.store(true, STORE);
}
int main() {
    std::thread t(compute);
    while (!done.load(LOAD)) std::this_thread::yield();
    std::printf("%f\n", result);
    t.join();
}
