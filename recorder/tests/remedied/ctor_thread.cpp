// A thread that is started in a constructor reads a member that is set after it.
#include <thread>
struct Logger {
    std::thread thread;
    int level;
    int seen = 0;
    Logger(int wanted) {
#ifdef FIXED
        level = wanted;
#endif
        thread = std::thread([this] { seen = level; });
#ifndef FIXED
        level = wanted;
#endif
    }
    ~Logger() { thread.join(); }
};
int main() {
    Logger logger(3);
}
