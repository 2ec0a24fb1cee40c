// A value that is there when its thread has ended comes after all that the thread did.
#include <future>
#include <thread>

static int before, after, racy;

int main() {
    std::promise<int> promise;
    std::packaged_task<int()> task([] { return 2; });
    std::future<int> one = promise.get_future(), two = task.get_future();
    std::thread a([&] {
        promise.set_value_at_thread_exit(1);
        before = 1;
    });
    std::thread b([&] {
        racy++;                                              // RACE
        task.make_ready_at_thread_exit();
        after = 1;
    });
    racy++;                                                  // RACE
    int sum = one.get() + before + two.get() + after;
    a.join();
    b.join();
    return sum != 5;
}
