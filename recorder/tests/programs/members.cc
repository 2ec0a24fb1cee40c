// Variables of classes, each written by two threads. Behind each word AT, what is written there, as the trace has it.
#include <atomic>
#include <mutex>
#include <thread>
#include <utility>
#include <vector>
namespace bank {
struct base {
    long padding, id;
};
class account : base {
    int balance;
    std::mutex guard;
    std::atomic<int> users;

  public:
    static int rate[2];
    void pay() {
        id = 1;                            // AT bank::first.id, bank::both[1].id
        balance = 2;                       // AT bank::first.balance, bank::both[1].balance
        rate[1] = 3;                       // AT bank::account::rate[1]
        users.store(1, std::memory_order_relaxed); // AT bank::first.users, bank::both[1].users
    }
    void take() {
        std::lock_guard<std::mutex> held(guard); // AT bank::first.guard
        balance = 1;                       // AT bank::first.balance
    }
};
int account::rate[2];
account first, both[2];
}
template <class T> struct box {
    T in;
    static T last;
};
template <class T> T box<T>::last;
box<std::pair<int, int>> pairs;
box<std::vector<char>> letters{std::vector<char>(9)};
static void work() {
    bank::first.pay();
    bank::both[1].pay();
    bank::first.take();
    pairs.in.second = 1;                   // AT pairs.in.second
    box<bank::base>::last.id = 1;          // AT box<bank::base>::last.id
    letters.in.pop_back();                 // AT letters.in._M_finish
}
int main() {
    std::thread t(work);
    work();
    t.join();
}
