// ThreadSanitizer's "data race on vptr": the object is destroyed while another thread still calls it.
#include <atomic>
#include <thread>
struct Base {
    std::atomic<int> done{0};
    long value = 1;
    virtual void run() { value++; done.store(1, std::memory_order_relaxed); }
    virtual ~Base() { while (!done.load(std::memory_order_relaxed)) std::this_thread::yield(); }
};
struct Derived : Base { void run() override { value += 2; done.store(1, std::memory_order_relaxed); } };
int main() {
    Base *it = new Derived;
    std::thread t([it] { it->run(); });
    delete it;
    t.join();
}
