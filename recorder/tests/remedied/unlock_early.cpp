// The entry is found under the lock, and changed after it.
#include <mutex>
#include <thread>
struct Account { std::mutex m; long balance = 100; };
static Account account;
static void pay(long sum) {
    std::unique_lock<std::mutex> guard(account.m);
    bool enough = account.balance >= sum;
#ifdef FIXED
    if (enough) account.balance -= sum;
    guard.unlock();
#else
    guard.unlock();
    if (enough) account.balance -= sum;
#endif
}
static void deposit(long sum) {
    std::lock_guard<std::mutex> guard(account.m);
    account.balance += sum;
}
int main() {
    std::thread a([] { for (int i = 0; i < 20; i++) pay(3); });
    std::thread b([] { for (int i = 0; i < 20; i++) deposit(2); });
    a.join();
    b.join();
}
