// A detached thread still uses its starter's local, where main's sleep has its own by then.
#include <atomic>
#include <chrono>
#include <thread>
struct Request { int kind, size; };
static std::atomic<int> sum;
static void handle(Request *r) {
    std::this_thread::sleep_for(std::chrono::milliseconds(2));
    sum = r->kind + r->size;
}
static void accept_one(int kind) {
#ifdef FIXED
    static
#endif
    Request r{kind, 2};
    std::thread(handle, &r).detach();
}
int main() {
    accept_one(1);
    for (int i = 0; i < 10; i++) std::this_thread::sleep_for(std::chrono::milliseconds(1));
    return sum == 9;
}
