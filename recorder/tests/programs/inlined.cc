// A function that the compiler puts into a lambda, and that into a function of the system's headers.
#include <thread>

int x;

static int look() {
    return x;  // LOOK
}

int main() {
    int seen = 0;
    std::thread reader([&] { seen = look(); });  // LAMBDA
    x = 1;
    reader.join();
    return seen > 1;
}
