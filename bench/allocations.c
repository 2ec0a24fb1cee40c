/* Two threads allocate and free blocks of 16 to 4,096 bytes. usage: allocations ROUNDS [N]: every Nth block
   is used, else none. */
#include <pthread.h>
#include <stdlib.h>

enum { LINE = 64 };
static int rounds, used;

__attribute__((noinline)) static void use(char *block, size_t size) {
    for (size_t at = 0; at < size; at += LINE) block[at] = 1;
}

static void *work(void *unused) {
    for (int k = 0; k < rounds; k++) {
        size_t size = (size_t)16 << k % 9;
        char *volatile block = malloc(size);
        if (used && k % used == 0) use(block, size);
        free(block);
    }
    return unused;
}

int main(int count, char **words) {
    pthread_t threads[2];
    rounds = count > 1 ? atoi(words[1]) : 1000000;
    used = count > 2 ? atoi(words[2]) : 0;
    for (int t = 0; t < 2; t++) pthread_create(&threads[t], 0, work, 0);
    for (int t = 0; t < 2; t++) pthread_join(threads[t], 0);
    return 0;
}
