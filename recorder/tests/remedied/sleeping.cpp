// main sleeps in place of a join, and prints.
#include <chrono>
#include <cstdio>
#include <thread>
static int answer;
int main() {
    std::thread t([] { answer = 42; });
#ifdef FIXED
    t.join();
#endif
    std::this_thread::sleep_for(std::chrono::milliseconds(20));
    std::printf("%d\n", answer);
#ifndef FIXED
    t.join();
#endif
}
