// A program's own new and delete, of which the C++ library makes all other forms: each block has a head that these know.
#include <cstdio>
#include <cstdlib>
#include <new>
#include <string>
#include <thread>
#include <vector>

enum { HEAD = 64 };
static int made, given;

void *operator new(size_t n) {
    __atomic_fetch_add(&made, 1, __ATOMIC_RELAXED);
    char *p = (char *)malloc(n + HEAD);
    if (!p) throw std::bad_alloc();
    return p + HEAD;
}
void operator delete(void *p) noexcept {
    if (!p) return;
    __atomic_fetch_add(&given, 1, __ATOMIC_RELAXED);
    free((char *)p - HEAD);
}

struct counted { long value; ~counted() { value = 0; } };
template <typename T> static T *see(T *block) {
    asm volatile("" : : "r"(block) : "memory");
    return block;
}

static void work() {
    delete see(new counted);
    delete[] see(new counted[9]);
    delete[] see(new int[9]);
    operator delete(see(new (std::nothrow) int), std::nothrow);
    operator delete[](see(new (std::nothrow) int[9]), std::nothrow);
    std::vector<std::string> texts;
    for (int k = 0; k < 40; k++) texts.push_back(std::string(40, 'x'));
}

int main() {
    std::thread a(work), b(work);
    a.join();
    b.join();
    printf("%d made, %d given back\n", made, given);
}
