/* A map, a set, a list or a string that one thread changes under the lock, and another inserts into, erases from or walks
   (the first word: i, e or w): with the lock if there is a second word, else without. The line that the lock is missing at
   is marked. */
#include <list>
#include <map>
#include <mutex>
#include <set>
#include <string>
#include <thread>

static std::mutex lock;
#ifdef MAP
static std::map<int, int> values;
#define PUT(k) values.emplace(k, k)
#elif defined SET
static std::set<int> values;
#define PUT(k) values.insert(k)
#elif defined LIST
static std::list<int> values;
#define PUT(k) values.push_back(k)
#else
static std::string values;
#define PUT(k) values.push_back('a' + (k) % 26)
#endif
static volatile int seen;

#define USE __attribute__((noinline)) static void
USE inserts() { PUT(100 + seen++); } /* MISSING */
USE erases() { values.erase(values.begin()); } /* MISSING */
USE walks() { for (auto at = values.begin(); at != values.end(); ++at) seen++; } /* MISSING */

static void use_often(char how, bool is_locked) {
    for (int k = 0; k < 5; k++) {
        std::unique_lock<std::mutex> hold(lock, std::defer_lock);
        if (is_locked) hold.lock();
        how == 'i' ? inserts() : how == 'e' ? erases() : walks();
    }
}

int main(int count, char **words) {
    for (int k = 0; k < 64; k++) PUT(k);
    std::thread t(use_often, words[1][0], count > 2);
    for (int k = 0; k < 5; k++) {
        std::lock_guard<std::mutex> hold(lock);
        PUT(1000 + k); /* RACE */
    }
    t.join();
    return seen < 0;
}
