// A failed request isn't counted under the lock that its statistics have.
#include <mutex>
#include <thread>
struct Stats { std::mutex m; long done = 0, failed = 0; };
static Stats stats;
static void fail() {
#ifdef FIXED
    std::lock_guard<std::mutex> guard(stats.m);
#endif
    stats.failed++;
}
static void request(int n) {
    if (n % 5 == 0) return fail();
    std::lock_guard<std::mutex> guard(stats.m);
    stats.done++;
}
static long all() {
    std::lock_guard<std::mutex> guard(stats.m);
    return stats.done + stats.failed;
}
int main() {
    std::thread a([] { for (int i = 0; i < 20; i++) request(i); all(); });
    std::thread b([] { for (int i = 0; i < 20; i++) request(i); all(); });
    a.join();
    b.join();
}
