/* Each kind and size of atomic operation: what it does, that one hands a value over, and that it gives no more. */
#include <pthread.h>
#include <stdint.h>

enum { KINDS = 10 };

#define OPERATIONS(type) \
    static type word_##type, flags_##type[KINDS]; \
    static int handed_##type[KINDS]; \
    static int values_##type(void) { \
        type *p = &word_##type, expected = 9; \
        __atomic_store_n(p, 12, __ATOMIC_SEQ_CST); \
        int good = __atomic_load_n(p, __ATOMIC_SEQ_CST) == 12 && __atomic_exchange_n(p, 3, __ATOMIC_ACQ_REL) == 12; \
        good &= __atomic_fetch_add(p, 4, __ATOMIC_RELAXED) == 3 && __atomic_fetch_sub(p, 1, __ATOMIC_RELAXED) == 7; \
        good &= __atomic_fetch_or(p, 9, __ATOMIC_RELAXED) == 6 && __atomic_fetch_and(p, 11, __ATOMIC_RELAXED) == 15; \
        good &= __atomic_fetch_xor(p, 2, __ATOMIC_RELAXED) == 11 && __atomic_fetch_nand(p, 8, __ATOMIC_RELAXED) == 9; \
        good &= !__atomic_compare_exchange_n(p, &expected, 1, 0, __ATOMIC_SEQ_CST, __ATOMIC_RELAXED); \
        good &= expected == (type)~8 && __sync_val_compare_and_swap(p, (type)~8, 5) == (type)~8; \
        good &= __atomic_compare_exchange_n(p, &(type){5}, 6, 0, __ATOMIC_SEQ_CST, __ATOMIC_RELAXED); \
        return good && __atomic_load_n(p, __ATOMIC_RELAXED) == 6; \
    } \
    static void hand_over_##type(int kind) { \
        type *p = &flags_##type[kind], none = 0; \
        handed_##type[kind] = kind; \
        switch (kind) { \
        case 0: __atomic_store_n(p, 1, __ATOMIC_RELEASE); break; \
        case 1: __atomic_exchange_n(p, 1, __ATOMIC_RELEASE); break; \
        case 2: __atomic_fetch_add(p, 1, __ATOMIC_RELEASE); break; \
        case 3: __atomic_fetch_sub(p, 1, __ATOMIC_RELEASE); break; \
        case 4: __atomic_fetch_or(p, 1, __ATOMIC_RELEASE); break; \
        case 5: __atomic_fetch_xor(p, 1, __ATOMIC_RELEASE); break; \
        case 6: __atomic_fetch_nand(p, 1, __ATOMIC_RELEASE); break; \
        case 7: __sync_bool_compare_and_swap(p, 0, 1); break; \
        case 8: __atomic_compare_exchange_n(p, &none, 1, 0, __ATOMIC_RELEASE, __ATOMIC_RELAXED); break; \
        default: __atomic_store_n(p, 1, __ATOMIC_SEQ_CST); \
        } \
        after[kind]++; \
    } \
    static int take_##type(int kind) { \
        type *p = &flags_##type[kind], none = 0; \
        switch (kind) { \
        case 0: while (!__atomic_fetch_add(p, 0, __ATOMIC_ACQUIRE)) ; break; \
        case 1: while (!__atomic_fetch_or(p, 0, __ATOMIC_ACQUIRE)) ; break; \
        case 2: while (!__sync_val_compare_and_swap(p, 1, 2)) ; break; \
        case 3: while (__atomic_compare_exchange_n(p, &none, 0, 0, __ATOMIC_ACQUIRE, __ATOMIC_ACQUIRE)) ; break; \
        default: while (!__atomic_load_n(p, __ATOMIC_ACQUIRE)) ; \
        } \
        after[kind]++; \
        return handed_##type[kind]; \
    }

static int after[KINDS];
OPERATIONS(uint8_t)                                          /* RACE: the lines of after */
OPERATIONS(uint16_t)                                         /* RACE */
OPERATIONS(uint32_t)                                         /* RACE */
OPERATIONS(uint64_t)                                         /* RACE */

static void *gives(void *unused) {
    for (int kind = 0; kind < KINDS; kind++) {
        hand_over_uint8_t(kind);
        hand_over_uint16_t(kind);
        hand_over_uint32_t(kind);
        hand_over_uint64_t(kind);
    }
    return 0;
}

static void *takes(void *bad) {
    for (int kind = 0; kind < KINDS; kind++) {
        int sum = take_uint8_t(kind) + take_uint16_t(kind) + take_uint32_t(kind) + take_uint64_t(kind);
        if (sum != 4 * kind) *(int *)bad = 1;
    }
    return 0;
}

int main(void) {
    pthread_t giver, taker;
    int bad = 0;
    pthread_create(&taker, 0, takes, &bad);
    pthread_create(&giver, 0, gives, 0);
    int good = values_uint8_t() && values_uint16_t() && values_uint32_t() && values_uint64_t();
    pthread_join(giver, 0);
    pthread_join(taker, 0);
    return bad || !good;
}
