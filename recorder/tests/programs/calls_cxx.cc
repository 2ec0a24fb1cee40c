/* As calls.c, in C++. */
#include <algorithm>
#include <thread>
#include <vector>
#define APART __attribute__((noinline, noclone))
static int a;

APART static void thrower(int n) {
    a++;                               // IN thrower between catcher
    if (n) throw n;
}
APART static void between(int n) {
    std::vector<int> held(n);
    thrower(n);
    a++;
}
APART static void catcher() {
    try {
        between(1);
    } catch (int) {
        a++;                           // IN catcher round
    }
    a++;                               // IN catcher round
}
APART static void sorter() {
    std::vector<int> numbers = {3, 1, 2};
    std::sort(numbers.begin(), numbers.end(), [](int x, int y) { return x < y; });
    a += numbers[0];                   // IN sorter round
}
struct Shape {
    virtual ~Shape() {}
    virtual void draw() = 0;
};
struct Circle : Shape {
    APART void draw() override {
        a++;                           // IN draw round
    }
};
APART static void round(Shape &shape) {
    catcher();
    sorter();
    shape.draw();
    a++;                               // IN round run
}
APART static void run() {
    Circle circle;
    for (int i = 0; i < 2; i++) round(circle);
    a++;                               // IN run
}
int main() {
    std::thread one([] { run(); }), other([] { run(); });
    one.join();
    other.join();
}
