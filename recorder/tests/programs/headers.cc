/* What a program does in code of the system's headers is told by its own lines. */
#include <thread>
#include <vector>
static std::vector<int> *bills;
static void worker() {
    bills->push_back(1);               // BILL
    bills->front() = 1;                // FIRST
}
int main() {
    bills = new std::vector<int>(1);   // NEW
    bills->reserve(10);                // BLOCK
    std::thread a(worker);
    bills->push_back(1);               // BILL
    bills->front() = 2;                // FIRST
    a.join();
}
