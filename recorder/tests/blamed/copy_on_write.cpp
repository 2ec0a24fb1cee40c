// Copy on write: use_count() is relaxed, so a write in place isn't ordered behind the last reader's end.
#include <chrono>
#include <memory>
#include <thread>
#include <vector>

struct Document {
    std::shared_ptr<std::vector<int>> data = std::make_shared<std::vector<int>>(8, 1);
    void set(int at, int value) {
        if (data.use_count() > 1)
            data = std::make_shared<std::vector<int>>(*data);
        (*data)[at] = value;
    }
};

static int sum;

int main() {
    Document document;
    std::thread reader([snap = document.data]() mutable {
        for (int value : *snap) sum += value;
        snap.reset();
    });
    std::this_thread::sleep_for(std::chrono::milliseconds(50));
    for (int at = 0; at < 8; at++) document.set(at, at);
    reader.join();
}
