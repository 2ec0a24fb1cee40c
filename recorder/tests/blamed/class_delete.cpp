// a class with operators of its own, which only hand on
#include <cstdlib>
#include <thread>
#include <unistd.h>
struct Node {
    long value = 0;
    static void *operator new(std::size_t size) { return std::malloc(size); }
    static void operator delete(void *p) { std::free(p); }
};
int main() {
    Node *node = new Node;
    std::thread thread([node] {
        for (int i = 0; i < 9; i++) {
            node->value++;
            usleep(9);
        }
    });
    usleep(300);
    delete node; /* BLAME */
    thread.join();
}
