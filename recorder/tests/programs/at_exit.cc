/* What a thread did before it registered a function for the end, also as the destructor of a static, comes before
   that. Nobody joins the thread; what it did later is ordered by nothing. */
#include <atomic>
#include <cstdlib>
#include <thread>
#include <unistd.h>

static int told, told_late;
static void at_end() {
    if (++told != 2) abort();
    told_late++; /* RACE */
}

struct counter {
    volatile int value = 1, late = 0;
    ~counter() {
        if (++value != 2) abort();
        late = 1; /* RACE */
    }
};

static counter &the_counter() {
    static counter its;
    return its;
}

static std::atomic<bool> done;
static void work() {
    told = 1;
    atexit(at_end);
    the_counter();
    told_late = 1; /* RACE */
    the_counter().late = 1; /* RACE */
    done.store(true, std::memory_order_relaxed);
    pause();
}

int main() {
    std::thread(work).detach();
    while (!done.load(std::memory_order_relaxed)) std::this_thread::yield();
}
