/* Loaded by plugin_host.c: it allocates, and has a local static, which need the C++ library. */
#include <set>
#include <string>
#include <vector>
static long total;
static long length() {
    static std::string text(40, 'x');
    static std::set<long> lengths = {40, 80};
    return text.size() + lengths.size();
}
extern "C" void plugin_add(long n) {
    std::vector<long> some(10, n);
    total += some[3] + length(); /* RACE */
}
