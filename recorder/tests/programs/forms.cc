// What debug information names, in each of its forms. Behind each word IS, what the two threads write there.
#include <memory>
#include <thread>
namespace bank {
struct base {
    long padding, id;
};
struct account : base {
    int balance;
    long limits[2];
};
}
template <class T> struct couple {
    T first, second;
};
bank::account one;
static couple<int> couples[3];
__attribute__((noinline)) static void work(bank::account *block, couple<long> *local) {
    one.id += 1;                           // IS one.id
    one.balance += 1;                      // IS one.balance
    couples[2].second += 1;                // IS couples[2].second
    block->limits[1] += 1;                 // IS bank::account.limits[1]
    local->second += 1;                    // IS local.second of main
}
int main(int count, char **) {
    auto block = std::make_unique<bank::account>();
    couple<long> local = {0, 0};
    std::thread t(work, block.get(), &local);
    work(block.get(), &local);
    t.join();
    return one.id + one.balance + couples[count].second + block->limits[1] + local.second == 0;
}
