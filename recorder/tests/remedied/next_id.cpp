// Identifiers of a plain counter.
#include <atomic>
#include <thread>
#ifdef FIXED
static std::atomic<int> next_id{1};
#else
static int next_id = 1;
#endif
struct Session {
    int id;
    Session() {
        id = next_id++;
        std::this_thread::yield();
    }
};
int main() {
    std::thread a([] { for (int i = 0; i < 30; i++) Session one; });
    std::thread b([] { for (int i = 0; i < 30; i++) Session one; });
    a.join();
    b.join();
}
