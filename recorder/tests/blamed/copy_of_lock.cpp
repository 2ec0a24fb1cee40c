// The lock is copied with the object, so each thread locks its own.
#include <mutex>
#include <thread>
static long total;
struct Adder {
    std::mutex m;
    Adder() {}
    Adder(const Adder &) {}
    void add() { std::lock_guard<std::mutex> g(m); total++; }
};
static Adder one;
static Adder other(one);
int main() {
    std::thread t([] { for (int k = 0; k < 5; k++) one.add(); });
    for (int k = 0; k < 5; k++) other.add();
    t.join();
    return total == 99;
}
