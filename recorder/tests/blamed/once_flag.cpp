// ThreadSanitizer's list: an initialization behind a plain flag, each in its own lock: the flag is read without it.
#include <mutex>
#include <thread>
static std::mutex m;
static bool ready;
static int table[8];
static void init() {
    if (ready) return;
    std::lock_guard<std::mutex> g(m);
    for (int &it : table) it = 7;
    ready = true;
}
int main() {
    std::thread a(init), b(init);
    a.join(); b.join();
    return table[3] - 7;
}
