// A thread that is started in a constructor reads an atomic that is set after it: constructors aren't atomic.
#include <atomic>
#include <thread>
struct Poller {
#ifdef FIXED
    std::atomic<bool> stop{false};
#endif
    std::thread thread;
#ifndef FIXED
    std::atomic<bool> stop;
#endif
    void poll() {
        while (!stop)
            std::this_thread::yield();
    }
    Poller() : thread([this] { poll(); })
#ifndef FIXED
    , stop(false)
#endif
    {}
    ~Poller() {
        stop = true;
        thread.join();
    }
};
int main() {
    Poller poller;
}
