/* Each call of a function in a header of the system is a place of its own, though at -O0 the accesses are of one instruction. */
#include <algorithm>
#include <thread>
static int bills[4];
static void worker() {
    std::fill(bills, bills + 4, 1);    // FILL
    std::fill(bills, bills + 4, 2);    // FILL
    std::fill(bills, bills + 4, 3);    // FILL
}
int main() {
    std::thread a(worker), b(worker);
    a.join();
    b.join();
}
