// Go's list: an error variable that two threads share by accident.
#include <thread>
int main() {
    int err = 0;
    std::thread a([&] {
        err = 1;
    });
    err = 2;
    a.join();
    return err == 9;
}
