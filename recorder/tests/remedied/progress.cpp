// A bar reads the name of the file that is being copied whenever the number of bytes has grown.
#include <atomic>
#include <cstdio>
#include <mutex>
#include <thread>
struct Progress { int file = 0; std::atomic<long> bytes{0}; std::mutex m; };
static Progress progress;
static void copy_file(int number) {
    {
#ifdef FIXED
        std::lock_guard<std::mutex> guard(progress.m);
#endif
        progress.file = number;
    }
    for (int block = 0; block < 4; block++) progress.bytes.fetch_add(4096, std::memory_order_relaxed);
}
static void draw() {
#ifdef FIXED
    std::lock_guard<std::mutex> guard(progress.m);
#endif
    std::printf("file %d\n", progress.file);
}
int main() {
    std::thread copying([] { for (int i = 1; i <= 20; i++) copy_file(i); });
    for (long seen = 0, n = 0; n < 50 && seen < 20 * 4 * 4096; n++) {
        long now = progress.bytes.load(std::memory_order_relaxed);
        if (now > seen) draw();
        seen = now;
        std::this_thread::yield();
    }
    copying.join();
}
