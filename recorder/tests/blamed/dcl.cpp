// A cache with double-checked locking.
#include <mutex>
#include <string>
#include <thread>
#include <unordered_map>
#include <vector>
#include <cstdio>

class Config {
public:
    std::string name; int limit;
    Config() : name("production"), limit(42) {}
};
static Config *instance;
static std::mutex lock;

Config *get() {
    if (!instance) {                              // first check without the lock
        std::lock_guard<std::mutex> g(lock);
        if (!instance) instance = new Config;
    }
    return instance;
}

int main() {
    std::vector<std::thread> ts;
    for (int t = 0; t < 4; ++t) ts.emplace_back([] { for (int i = 0; i < 10; ++i) if (get()->limit != 42) std::puts("?"); });
    for (auto &t : ts) t.join();
    std::printf("%s\n", get()->name.c_str());
}
