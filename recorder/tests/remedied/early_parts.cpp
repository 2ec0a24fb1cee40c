// results are read before the threads are joined
#include <cstdio>
#include <numeric>
#include <thread>
#include <vector>
struct Part { long sum = 0, most = 0; };
static void count(const std::vector<int> &all, size_t from, size_t to, Part &part) {
    for (size_t k = from; k < to; k++) {
        part.sum += all[k];
        if (all[k] > part.most) part.most = all[k];
    }
}
int main() {
    std::vector<int> all(400);
    std::iota(all.begin(), all.end(), 1);
    std::vector<Part> parts(4);
    std::vector<std::thread> threads;
    for (size_t k = 0; k < 4; k++)
        threads.emplace_back(count, std::cref(all), k * 100, k * 100 + 100, std::ref(parts[k]));
    long total = 0;
#ifdef FIXED
    for (auto &t : threads) t.join();
#endif
    for (const Part &part : parts) total += part.sum;
#ifndef FIXED
    for (auto &t : threads) t.join();
#endif
    std::printf("%d\n", total >= 0);
}
