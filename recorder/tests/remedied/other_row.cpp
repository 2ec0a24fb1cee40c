// A transfer locks the row that it takes from alone.
#include <mutex>
#include <thread>
struct Row { std::mutex m; long stock = 50; };
static Row rows[2];
static void move(int from, int to) {
#ifdef FIXED
    std::scoped_lock guard(rows[from].m, rows[to].m);
#else
    std::lock_guard<std::mutex> guard(rows[from].m);
#endif
    rows[from].stock--;
    rows[to].stock++;
}
int main() {
    std::thread a([] { for (int i = 0; i < 20; i++) move(0, 1); });
    std::thread b([] { for (int i = 0; i < 20; i++) move(1, 0); });
    a.join();
    b.join();
}
