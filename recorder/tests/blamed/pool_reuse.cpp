// a buffer is used after it went back to its pool, under whose lock it was made
#include <cstdio>
#include <cstring>
#include <mutex>
#include <thread>
#include <vector>
struct Buffer { char bytes[64]; size_t used = 0; };
class Pool {
    std::mutex m;
    std::vector<Buffer *> free_ones;
public:
    Buffer *take() {
        std::lock_guard<std::mutex> lock(m);
        if (free_ones.empty()) return new Buffer;
        Buffer *b = free_ones.back();
        free_ones.pop_back();
        return b;
    }
    void give(Buffer *b) {
        std::lock_guard<std::mutex> lock(m);
        free_ones.push_back(b);
    }
};
static Pool pool;
static size_t send(int n) {
    Buffer *b = pool.take();
    b->used = std::snprintf(b->bytes, sizeof b->bytes, "message number %d", n);
    pool.give(b);
    return b->used;
}
int main() {
    std::vector<std::thread> threads;
    size_t sums[3] = {};
    for (int k = 0; k < 3; k++)
        threads.emplace_back([&sums, k] {
            for (int n = 0; n < 60; n++) sums[k] += send(n * k);
        });
    for (auto &t : threads) t.join();
    std::printf("%d\n", sums[0] > 0);
}
