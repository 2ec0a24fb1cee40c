// The title grows under the lock, and is copied without it.
#include <cstdio>
#include <mutex>
#include <string>
#include <thread>
static std::mutex m;
static std::string title = "a title that is too long for the small buffer";
static void extend(int n) {
    std::lock_guard<std::mutex> guard(m);
    title.reserve(title.size() + 100);
    title[n % 8] = 'b';
}
static char first() {
#ifdef FIXED
    std::lock_guard<std::mutex> guard(m);
#endif
    return title[3];
}
int main() {
    std::thread t([] { for (int i = 0; i < 30; i++) extend(i); });
    int sum = 0;
    for (int i = 0; i < 30; i++) sum += first();
    t.join();
    std::printf("%d\n", sum);
}
