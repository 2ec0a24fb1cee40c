// A worker is stopped by a plain flag; what it counts is read after the join.
#include <thread>
static bool stop;
static long rounds;
static void work() {
    for (int k = 0; k < 10000 && !stop; k++) { rounds++; std::this_thread::yield(); }
}
int main() {
    std::thread t(work);
    std::this_thread::yield();
    stop = true;
    t.join();
    return rounds == 99;
}
