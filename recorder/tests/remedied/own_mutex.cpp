// Each call locks a mutex of its own.
#include <mutex>
#include <thread>
static long total;
static std::mutex shared;
static void add(long n) {
#ifdef FIXED
    std::lock_guard<std::mutex> guard(shared);
#else
    std::mutex m;
    std::lock_guard<std::mutex> guard(m);
#endif
    total += n;
}
int main() {
    std::thread a([] { for (int i = 0; i < 20; i++) add(1); });
    std::thread b([] { for (int i = 0; i < 20; i++) add(2); });
    a.join();
    b.join();
}
