// A local static whose first initialization throws is initialized again by another thread, after the first: no race.
#include <thread>

static int tries;
struct maker {
    maker() {
        if (tries++ < 2) throw 1;
    }
};

static void use() {
    try {
        static maker made;
    } catch (int) {
    }
}

int main() {
    std::thread a(use), b(use), c(use), d(use);
    a.join();
    b.join();
    c.join();
    d.join();
    return tries != 3;
}
