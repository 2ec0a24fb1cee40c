/* Atomics of 16 bytes: they link, do what they should, and hand over. */
#include <pthread.h>
typedef unsigned __int128 wide;
static wide value, counter, ready;
static int handed;
static int is(wide found, unsigned long high, unsigned long low) { return found == ((wide)high << 64 | low); }
static int values(void) {
    wide one = (wide)1 << 64, expected;
    __atomic_store_n(&value, one | 2, __ATOMIC_SEQ_CST);
    int good = is(__atomic_load_n(&value, __ATOMIC_RELAXED), 1, 2);
    good &= is(__atomic_exchange_n(&value, one | 6, __ATOMIC_ACQ_REL), 1, 2);
    good &= is(__atomic_fetch_add(&value, one | 1, __ATOMIC_RELAXED), 1, 6);
    good &= is(__atomic_fetch_sub(&value, 2, __ATOMIC_RELEASE), 2, 7);
    good &= is(__atomic_fetch_and(&value, one * 3 | 4, __ATOMIC_ACQUIRE), 2, 5);
    good &= is(__atomic_fetch_or(&value, one | 8, __ATOMIC_SEQ_CST), 2, 4);
    good &= is(__atomic_fetch_xor(&value, one, __ATOMIC_SEQ_CST), 3, 12);
    good &= is(__atomic_fetch_nand(&value, one * 3, __ATOMIC_SEQ_CST), 2, 12);
    good &= is(__atomic_load_n(&value, __ATOMIC_ACQUIRE), ~2ul, ~0ul);
    expected = 5;
    good &= !__atomic_compare_exchange_n(&value, &expected, 7, 0, __ATOMIC_SEQ_CST, __ATOMIC_RELAXED);
    good &= __atomic_compare_exchange_n(&value, &expected, 7, 0, __ATOMIC_SEQ_CST, __ATOMIC_RELAXED);
    return good && is(__atomic_load_n(&value, __ATOMIC_SEQ_CST), 0, 7);
}
static void *work(void *unused) {
    for (int i = 0; i < 1000; i++) __atomic_fetch_add(&counter, ((wide)1 << 64) + 1, __ATOMIC_RELAXED);
    handed = 1;
    __atomic_store_n(&ready, 1, __ATOMIC_RELEASE);
    return 0;
}
int main(void) {
    pthread_t t;
    pthread_create(&t, 0, work, 0);
    for (int i = 0; i < 1000; i++) __atomic_fetch_add(&counter, ((wide)1 << 64) + 1, __ATOMIC_RELAXED);
    while (!__atomic_load_n(&ready, __ATOMIC_ACQUIRE)) ;
    int good = handed && values();
    pthread_join(t, 0);
    return !good || !is(counter, 2000, 2000);
}
