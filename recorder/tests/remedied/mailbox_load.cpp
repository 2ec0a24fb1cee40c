// The box is filled with release, and looked at relaxed.
#include <atomic>
#include <cstdio>
#include <thread>
#ifdef FIXED
#define LOAD std::memory_order_acquire
#else
#define LOAD std::memory_order_relaxed
#endif
struct Letter { int from, text; };
static std::atomic<Letter *> box{nullptr};
static void post() {
    Letter *letter = new Letter;
    letter->from = 3;
    letter->text = 17;
    box.store(letter, std::memory_order_release);
}
int main() {
    std::thread t(post);
    Letter *got;
    while (!(got = box.load(LOAD)))
        std::this_thread::yield();
    std::printf("%d %d\n", got->from, got->text);
    t.join();
    delete got;
}
