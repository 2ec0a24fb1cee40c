/* Functions of the C++ library that have no hooks change maps, sets and lists. Of what is under the lock, and of elements that
   are used without it, nothing is a race. */
#include <list>
#include <map>
#include <mutex>
#include <set>
#include <thread>
static std::mutex lock;
static std::map<int, int> counts, walked;
static std::set<int> kept;
static std::list<int> jobs, apart;

static void add(int from) {
    int *own;
    {
        std::lock_guard<std::mutex> hold(lock);
        own = &counts[from];
    }
    for (int k = 1; k < 9; k++) {
        ++*own;
        std::lock_guard<std::mutex> hold(lock);
        counts[from + k] = k;
        if (k % 3 == 0) counts.erase(from + k);
        kept.insert(from + 2 * k);
        if (kept.size() > 4) kept.erase(kept.begin());
        for (auto k = kept.rbegin(); k != kept.rend(); ++k) jobs.push_back(*k);
        jobs.reverse();
        jobs.sort();
        while (jobs.size() > 3) jobs.pop_front();
    }
}

static void grow() {
    for (int k = 0; k < 9; k++) {
        std::lock_guard<std::mutex> hold(lock);
        walked.emplace(k, 0);          // RACE
        std::list<int> one(1, k);
        apart.splice(apart.end(), one);          // RACE
    }
}

int main() {
    int sum = 0;
    std::thread t(add, 0), u(add, 100), v(grow);
    for (int k = 0; k < 5; k++) {
        for (auto w = walked.begin(); w != walked.end(); ++w) sum++;       // RACE
        for (auto a = apart.begin(); a != apart.end(); ++a) sum++;         // RACE
    }
    t.join();
    u.join();
    v.join();
    return sum < 0 || counts[0] != 8 || counts[100] != 8;
}
