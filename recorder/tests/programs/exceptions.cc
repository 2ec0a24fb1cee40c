/* Threads share exceptions. The last user of one destroys it, after what the others did with it; nothing else is
   ordered by that. */
#include <atomic>
#include <cstdlib>
#include <exception>
#include <future>
#include <thread>

struct problem {
    volatile int code = 4;
    problem() = default;
    problem(const problem &other) : code(other.code) {}
    ~problem() { code = 0; }
};

static void look_at(const problem &its) {
    if (its.code != 4) abort();
}

static void look_again(const problem &its) {
    try {
        throw;
    } catch (const problem &again) {
        if (&again != &its) abort();
        look_at(again);
    }
    look_at(its);
}

static void take(std::exception_ptr p) {
    try {
        std::rethrow_exception(std::move(p));
    } catch (const problem &its) {
        look_again(its);
    }
}

static void wait_for(std::shared_future<void> result) {
    try {
        auto own = std::move(result);
        own.get();
    } catch (const problem &its) {
        look_at(its);
    }
}

static void pointers() {
    std::exception_ptr p = std::make_exception_ptr(problem());
    std::thread t(take, p), u(take, p);
    p = nullptr;
    t.join();
    u.join();
}

static void futures() {
    std::promise<void> promise;
    std::shared_future<void> result = promise.get_future().share();
    std::thread t(wait_for, result), u(wait_for, std::move(result));
    promise.set_exception(std::make_exception_ptr(problem()));
    t.join();
    u.join();
}

/* The thread's and that of the handler which began it. */
static void handler() {
    std::thread t;
    try {
        throw problem();
    } catch (const problem &its) {
        t = std::thread(take, std::current_exception());
        look_again(its);
    }
    t.join();
}

/* One after the other, each with an exception of its own. */
static std::atomic<int> is_second;
static int plain;
static void first() {
    plain++; /* RACE */
    take(std::make_exception_ptr(problem()));
    is_second.store(1, std::memory_order_relaxed);
}

static void second() {
    while (!is_second.load(std::memory_order_relaxed)) std::this_thread::yield();
    take(std::make_exception_ptr(problem()));
    plain++; /* RACE */
}

int main() {
    pointers();
    futures();
    handler();
    std::thread t(first), u(second);
    t.join();
    u.join();
}
