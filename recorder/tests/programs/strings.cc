/* Functions of the C++ library that have no hooks read and change strings. One of each that `change` changes is used
   without the lock, in each way once. Nothing else that is done to strings is a race, and each call does what the
   standard says. */
#include <iostream>
#include <mutex>
#include <sstream>
#include <stdexcept>
#include <string>
#include <thread>
#include <utility>

enum { USES = 20 };
static std::mutex lock;
static std::string raced[USES], shared = "read by all", guarded, letters = "abcdefgh", long_one(100, 'l');
static int failures;
static volatile std::size_t found;

#define IS(found, expected) if ((found) != (expected)) fail()
#define THROWS(call, error) try { call; fail(); } catch (const std::error &) { }
static void fail() {
    std::lock_guard<std::mutex> hold(lock);
    failures++;
}

static void change() {
    for (int k = 0; k < USES; k++) raced[k] += "more than is in the string itself"; // RACE
}

static void use() {
    int k = 0;
    std::string own = "own", copied(raced[k++]); // RACE
    own.append(raced[k++]);                      // RACE
    own = raced[k++];                            // RACE
    own.insert(0, raced[k++]);                   // RACE
    own.replace(0, 1, raced[k++]);               // RACE
    std::string("other").swap(raced[k++]);       // RACE
    std::string("o") = std::move(raced[k++]);    // RACE
    found = own.find(raced[k++]);                // RACE
    found = own.compare(raced[k++]);             // RACE
    own = raced[k++].substr(0, 1);               // RACE
    found = raced[k++].find('x');                // RACE
    raced[k++].clear();                          // RACE
    raced[k++] = "other";                        // RACE
    raced[k++].replace(0, 1, 1, 'x');            // RACE
    raced[k++].resize(2);                        // RACE
    raced[k++].pop_back();                       // RACE
    raced[k++].at(0) = 'x';                      // RACE
    std::ostringstream out;
    out << raced[k++];                           // RACE
    std::istringstream in("line");
    std::getline(in, raced[k++]);                // RACE
    in >> raced[k++];                            // RACE
}

static void change_own() {
    std::string s("abc"), empty, five(5, 'f'), listed{'a', 'b'};
    IS(s + "def" + empty, "abcdef");
    IS(s.append("defgh", 3).append(2, 'x').append(five, 1, 2), "abcdefxxff");
    IS(s.insert(1, "--").insert(0, 1, '+').insert(s.size(), five), "+a--bcdefxxfffffff");
    IS(s.erase(0, 1).erase(1, 2), "abcdefxxfffffff");
    s.erase(s.begin());
    s.erase(s.end() - 2, s.end());
    IS(s, "bcdefxxfffff");
    IS(s.replace(0, 3, "BCD").replace(s.begin(), s.begin() + 1, 2, 'b').replace(2, 2, five, 0, 1), "bbfefxxfffff");
    s.assign(long_one, 98, 5).push_back('!');
    IS(s += s, "ll!ll!");
    s.resize(4);
    s.pop_back();
    IS(s, "ll!");
    s.reserve(200);
    s = std::move(five);
    std::swap(s, empty);
    IS(s + '/' + empty + '/' + listed, "/fffff/ab");
    s.resize(40, 'z');
    s.shrink_to_fit();
    IS(s, std::string(40, 'z'));
}

static void read() {
    IS(shared.find("by") + shared.find('r') + shared.find_first_of("db") + shared.find_first_not_of("read "), 5 + 0 + 3 + 5);
    IS(shared.rfind('a') + shared.find_last_of("yr") + shared.find_last_not_of("l"), 8 + 6 + 8);
    IS(shared.find("none") == std::string::npos && shared.rfind("read") == 0, true);
    IS(shared.compare("read by none") < 0 && shared.compare(5, 2, "by") == 0 && shared.compare(8, 3, long_one) < 0, true);
    IS(shared.substr(5, 2) + shared.substr(8), "byall");
    char copied[3] = "";
    IS(shared.copy(copied, 2, 5) + std::string(copied).size(), 4);
    IS(std::string(shared.rbegin(), shared.rend()), "lla yb daer");
    IS(std::string(shared, 5).front(), 'b');
    IS(*shared.begin() == shared.front() && shared.back() == *(shared.end() - 1) && shared.c_str() == shared.data(), true);
    IS(shared.empty() || shared.length() != shared.size() || shared.capacity() < shared.size(), false);
    THROWS(shared.at(50), out_of_range);
    THROWS(shared.substr(12), out_of_range);
    THROWS(std::string(shared, 12), out_of_range);
    THROWS(std::string(std::string::npos, 'x'), length_error);
}

static void work(int number) {
    for (int k = 0; k < 8; k++) letters[number] = 'A' + k; // another thread's is beside it
    for (int k = 0; k < 20; k++) {
        std::lock_guard<std::mutex> hold(lock);
        guarded += "ab";
        if (guarded.size() > 30) guarded.erase(0, 17);
    }
    change_own();
    read();
    std::istringstream in("one two\nthree");
    std::string word, line;
    in >> word;
    std::getline(in, line);
    IS(word + line, "one two");
    THROWS(word.insert(9, "x"), out_of_range);
    THROWS(word.resize(std::string::npos), length_error);
    IS(word, "one");
}

int main() {
    for (std::string &r : raced) r = "text";
    std::thread t(change), u(use), v(work, 0), w(work, 1);
    t.join();
    u.join();
    v.join();
    w.join();
    return failures;
}
