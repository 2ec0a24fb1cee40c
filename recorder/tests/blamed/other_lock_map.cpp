// a map is changed under the lock of its log
#include <map>
#include <mutex>
#include <string>
#include <thread>
#include <vector>
class Store {
    std::mutex m, log_m;
    std::map<int, std::string> index;
    std::vector<std::string> log;
public:
    void put(int key, const std::string &value) {
        std::lock_guard<std::mutex> lock(m);
        index[key] = value;
    }
    std::string get(int key) {
        std::lock_guard<std::mutex> lock(m);
        auto found = index.find(key);
        return found == index.end() ? std::string() : found->second;
    }
    void drop(int key) {
        std::lock_guard<std::mutex> lock(log_m);
        log.push_back("dropped");
        index.erase(key);
    }
    size_t logged() {
        std::lock_guard<std::mutex> lock(log_m);
        return log.size();
    }
};
int main() {
    Store store;
    std::thread writer([&] { for (int k = 0; k < 60; k++) store.put(k % 9, "some text that is longer"); });
    std::thread reader([&] { size_t n = 0; for (int k = 0; k < 60; k++) n += store.get(k % 9).size(); });
    std::thread cleaner([&] { for (int k = 0; k < 20; k++) store.drop(k % 9); });
    writer.join();
    reader.join();
    cleaner.join();
    return store.logged() ? 0 : 1;
}
