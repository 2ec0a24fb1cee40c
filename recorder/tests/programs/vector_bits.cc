// Bits of a vector that threads write share words. A line ends with the names of what it accesses in blocks.
#include <thread>
#include <vector>

static std::vector<bool> flags(70);

static void set(int k) {
    flags[k] = true; /* IS std::vector<bool>[0..63] */
    flags[k + 64] = true; /* IS std::vector<bool>[64..127] */
}

int main() {
    std::thread first(set, 1), second(set, 2);
    first.join();
    second.join();
    return !flags[1] + !flags[66];
}
