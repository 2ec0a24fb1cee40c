// The lock is given up before the last use.
#include <mutex>
#include <thread>
struct Cache {
    std::mutex m;
    long hits = 0, misses = 0;
    void hit() {
        std::unique_lock<std::mutex> g(m);
        hits++;
    }
    void miss() {
        std::unique_lock<std::mutex> g(m);
        misses++;
        g.unlock();
        hits--;
    }
};
int main() {
    static Cache c;
    std::thread t([] { for (int k = 0; k < 5; k++) c.hit(); });
    for (int k = 0; k < 5; k++) c.miss();
    t.join();
    return c.hits == 99;
}
