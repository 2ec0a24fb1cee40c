// A lock-free stack: the node is published with relaxed.
#include <atomic>
#include <thread>
struct Node { int value; Node *next; };
static std::atomic<Node *> top;
static Node nodes[4];
static void push(int k) {
    nodes[k].value = k;
    Node *old = top.load(std::memory_order_relaxed);
    do nodes[k].next = old; while (!top.compare_exchange_weak(old, &nodes[k], std::memory_order_relaxed));
}
static int sum() {
    int found = 0;
    Node *it;
    while (!(it = top.load(std::memory_order_acquire))) std::this_thread::yield();
    for (; it; it = it->next) found += it->value;
    return found;
}
int main() {
    std::thread t([] { push(1); });
    int found = sum();
    t.join();
    return found == 9;
}
