// Jobs are pushed under the lock, and counted without it.
#include <cstdio>
#include <mutex>
#include <thread>
#include <vector>
struct Jobs {
    std::mutex m;
    std::vector<int> all;
    void push(int job) {
        std::lock_guard<std::mutex> guard(m);
        all.push_back(job);
    }
    bool idle() {
#ifdef FIXED
        std::lock_guard<std::mutex> guard(m);
#endif
        return all.empty();
    }
};
static Jobs jobs;
int main() {
    jobs.all.reserve(64);
    std::thread t([] { for (int i = 0; i < 40; i++) jobs.push(i); });
    int idle = 0;
    for (int i = 0; i < 40; i++) idle += jobs.idle();
    t.join();
    std::printf("%d\n", idle);
}
