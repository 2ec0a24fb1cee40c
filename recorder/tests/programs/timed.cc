/* What clocks show, and whose time runs out, decides what is done; it is printed. */
#include <chrono>
#include <condition_variable>
#include <cstdio>
#include <ctime>
#include <mutex>
#include <semaphore.h>
#include <sys/time.h>
#include <thread>
#include <unistd.h>

using std::chrono::microseconds;
enum { THREADS = 3, ROUNDS = 12 };
static std::timed_mutex gate;
static std::mutex door;
static std::condition_variable bell;
static sem_t tokens;
static int items, had[THREADS + 1], waited[THREADS + 1], passed[THREADS + 1], late[THREADS + 1];

static timespec in(long microseconds_) {
    timespec time;
    clock_gettime(CLOCK_REALTIME, &time);
    long nanoseconds = time.tv_nsec + microseconds_ * 1000;
    return {time.tv_sec + nanoseconds / 1000000000, nanoseconds % 1000000000};
}

static void work(int n) {
    for (int k = 0; k < ROUNDS; k++) {
        {
            std::unique_lock<std::mutex> held(door);
            if (bell.wait_for(held, microseconds(500), [] { return items > 0; })) items--, had[n]++;
        }
        timespec until = in(300);
        if (!sem_timedwait(&tokens, &until)) waited[n]++;
        if (gate.try_lock_for(microseconds(200))) {
            passed[n]++;
            usleep(100);
            gate.unlock();
        }
        auto end = std::chrono::steady_clock::now() + microseconds(50);
        while (std::chrono::steady_clock::now() < end) late[n]++;
    }
}

int main() {
    std::thread threads[THREADS];
    timeval begin;
    gettimeofday(&begin, nullptr);
    printf("%ld.%06ld %ld\n", begin.tv_sec, begin.tv_usec, time(nullptr));
    sem_init(&tokens, 0, 0);
    for (int n = 1; n <= THREADS; n++) threads[n - 1] = std::thread(work, n);
    for (int k = 0; k < ROUNDS; k++) {
        usleep(300);
        {
            std::lock_guard<std::mutex> held(door);
            items++;
        }
        bell.notify_one();
        sem_post(&tokens);
    }
    for (auto &thread : threads) thread.join();
    for (int n = 1; n <= THREADS; n++) printf("%d %d %d %d\n", had[n], waited[n], passed[n], late[n]);
    timespec end = in(0);
    printf("%ld.%09ld\n", end.tv_sec, end.tv_nsec);
    return 0;
}
