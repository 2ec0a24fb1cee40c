// Each form of new and delete.
#include <cstdio>
#include <cstdlib>
#include <new>

struct alignas(64) wide { char bytes[64]; };
static int blocks;

template <typename T> static T *see(T *block) {
    if (!block || (unsigned long)block % alignof(T)) exit(1);
    blocks++;
    return block;
}

int main() {
    delete see(new int);
    delete[] see(new int[9]);
    operator delete(see(new (std::nothrow) int), std::nothrow);
    operator delete[](see(new (std::nothrow) int[9]), std::nothrow);
    delete see(new wide);
    delete[] see(new wide[9]);
    operator delete(see(new (std::nothrow) wide), std::align_val_t(64), std::nothrow);
    operator delete[](see(new (std::nothrow) wide[9]), std::align_val_t(64), std::nothrow);
    printf("%d blocks\n", blocks);
    return 0;
}
