// Each thread captures the loop's variable by reference.
#include <cstdio>
#include <thread>
#include <vector>
int main() {
    std::vector<std::thread> threads;
    static int seen[4];
    int i;
    for (i = 0; i < 4; i++)
#ifdef FIXED
        threads.emplace_back([i, slot = &seen[i]] { *slot = i; });
#else
        threads.emplace_back([&i, slot = &seen[i]] { *slot = i; });
#endif
    for (std::thread &one : threads) one.join();
    std::printf("%d\n", seen[3]);
}
