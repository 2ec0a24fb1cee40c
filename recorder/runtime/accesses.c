/* What `gcc -fsanitize=thread` calls: a hook before each access of memory, and the atomic operations. */
#include "hold.h"

/* ---- accesses ---- */
static uint64_t size_in_last(uint64_t size) {
    return size <= 16 && !(size & (size - 1)) ? (uint64_t)__builtin_ctzl(size) : IS_RANGE | size % IS_RANGE;
}
static uint64_t write_at(uint64_t size, uint64_t caller) {
    return caller | (uint64_t)OP_WRITE << 48 | size_in_last(size) << 54;
}

/* gcc puts two hooks before one copy of a structure (of the write, then of the read), and between them the
   turn must not be given up.  They are of one size, and the second stands soon after the first in the code:
   up to 86 bytes were seen, with indices in two dimensions and large addresses.  A read that follows in a
   loop stands before the write. */
enum { COPY_BYTES = 128 };

static int ends_copy(const thread *t, uint64_t size, uint64_t caller) {
    uint64_t inside = t->last >> 54;   /* of a quick hook with a depth */
    return is_write(t->last) && caller - (t->last & LOW_48_BITS) <= COPY_BYTES
        && (inside & IS_RANGE ? inside : inside % (1 << LOGARITHM_BITS)) == size_in_last(size);
}

int hold_range(enum operation operation, uint64_t address, uint64_t size, uint64_t caller) {
    thread *t = self;
    uint64_t *words[MOST_CELLS], end = address + size;
    if (!t || !t->limit || t->inside || size > MOST_RANGE) return 0;
    t->inside = 1;
    KEEP_ORDER();
    uint64_t where_from = caller & LOW_48_BITS;              /* a program may name any */
    uint64_t what = what_of_use(where_from | (uint64_t)operation << 48 | size_in_last(size) << 54, address);
    int count = is_usual(t, end - 1) ? words_of_range(t->serial, (cell_use){what, t->kind}, address, end,
                                                      words) : 0;
    int is_held = count && hold_quickly(t, words[0], operation, what, IS_PLAIN);
    for (int k = 1; is_held && k < count; k++) *words[k] = *words[0];
    end_hook(t);
    return is_held;
}

RARE void note_access(enum operation operation, uint64_t address, uint64_t size,
                                           uint64_t caller) {
    thread *t = self;
    int is_read = operation == OP_READ, is_in_copy = is_read && t && ends_copy(t, size, caller);
    if (address % GRAIN + size > GRAIN && hold_range(operation, address, size, caller)) return;
    if (!t) note_stranger();
    if (!others || !size || !enter_access(is_in_copy ? NEVER_YIELD : MAY_YIELD)) return;
    if (!is_read) t->last = write_at(size, caller);
    put(t, operation, (void *)address, size, caller);
    if (is_read) note_spin(t, read_at(address, caller));
    leave(t);
}

/* The rest of a quick hook without a cell, or of a use that is new there or not in the line that has most. */
void hold_elsewhere(thread *t, cell *c, uint64_t what, uint64_t address) {
    cell_use use = {what, c ? kind_in(c, what, t->kind, t->reader) : 0};
    uint64_t *word = c ? word_of_use(c, address, t->serial, t->number, use) : 0;
    int is_held = word && hold_quickly(t, word, operation_of_use(what), what, IS_PLAIN);
    end_hook(t);
    if (!is_held)
        note_access(operation_of_use(what), address, 1 << (what >> 54) % (1 << LOGARITHM_BITS),
                    what & LOW_48_BITS);
}

#define ACCESSES(kind, n) \
    PUBLIC void __tsan_##kind##read##n(void *p) { hook(OP_READ, (uint64_t)p, n, CALLER); } \
    PUBLIC void __tsan_##kind##write##n(void *p) { hook(OP_WRITE, (uint64_t)p, n, CALLER); }
/* One at a place that may be named; it isn't quick. */
#define ACCESS(name, operation, size, place, parameters) \
    PUBLIC void __tsan_##name parameters { note_access(operation, (uint64_t)p, size, (uint64_t)(place)); }
#define ACCESSES_OF(n) \
    ACCESSES(, n) ACCESSES(volatile_, n) ACCESSES(unaligned_, n) ACCESSES(unaligned_volatile_, n) \
    ACCESS(read##n##_pc, OP_READ, n, at, (void *p, void *at)) \
    ACCESS(write##n##_pc, OP_WRITE, n, at, (void *p, void *at))
ACCESSES_OF(1)
ACCESSES_OF(2)
ACCESSES_OF(4)
ACCESSES_OF(8)
ACCESSES_OF(16)

ACCESS(read_range, OP_READ, size, CALLER, (void *p, unsigned long size))
ACCESS(write_range, OP_WRITE, size, CALLER, (void *p, unsigned long size))
ACCESS(read_range_pc, OP_READ, size, at, (void *p, unsigned long size, void *at))
ACCESS(write_range_pc, OP_WRITE, size, at, (void *p, unsigned long size, void *at))
PUBLIC void __tsan_vptr_read(void **p) { hook(OP_READ, (uint64_t)p, 8, CALLER); }
PUBLIC void __tsan_vptr_update(void **p, void *value) {
    if (*p != value) hook(OP_WRITE, (uint64_t)p, 8, CALLER);
}

/* A program may have these do an access that isn't aligned. */
#define UNALIGNED(bits) \
    typedef uint##bits##_t __attribute__((aligned(1))) unaligned##bits; \
    PUBLIC uint##bits##_t __sanitizer_unaligned_load##bits(const void *p) { \
        note_access(OP_READ, (uint64_t)p, bits / 8, CALLER); \
        return *(const volatile unaligned##bits *)p; \
    } \
    PUBLIC void __sanitizer_unaligned_store##bits(void *p, uint##bits##_t value) { \
        note_access(OP_WRITE, (uint64_t)p, bits / 8, CALLER); \
        *(volatile unaligned##bits *)p = value; \
    }
UNALIGNED(16)
UNALIGNED(32)
UNALIGNED(64)

/* A library without hooks tells how its object is used: an access of the first byte, by its caller. */
static uint64_t user_of(void *user, uint64_t caller) { return user ? (uint64_t)user : caller; }
ACCESS(external_read, OP_READ, 1, user_of(user, CALLER), (void *p, void *user, void *tag))
ACCESS(external_write, OP_WRITE, 1, user_of(user, CALLER), (void *p, void *user, void *tag))

/* ---- atomic operations: done here with the turn, in the strongest order; the record has their own ---- */
#define ATOMIC __attribute__((section("atomics")))           /* a fault there is the program's (signals.c) */
static uint64_t size_and_order(int size, int order) { return size | (order & 7) << ATOMIC_SIZE_BITS; }

static thread *before_atomic(enum operation operation, pointer p, uint64_t size_and_order, uint64_t caller) {
    thread *t = enter(MAY_YIELD);
    if (t && others) put(t, operation, p, size_and_order, caller);
    return t;
}

/* What the hook has last, by whether it changed the value: a loop that doesn't may wait for a thread. */
static uint64_t last_of(int is_changed, pointer p, uint64_t caller) {
    return is_changed ? 0 : read_at((uint64_t)p, caller);
}

static void after_atomic(thread *t, uint64_t last) {
    if (!self) note_stranger();
    if (!t) return;
    if (last) note_spin(t, last);
    else t->last = 0;
    leave(t);
}

/* Whether a compare-and-exchange is an update or a load, and what an exchange is, is known after it. */
static void after_exchange(thread *t, enum operation operation, int is_changed, pointer p,
                           uint64_t size_and_order, uint64_t caller) {
    if (t && others) put(t, operation, p, size_and_order, caller);
    after_atomic(t, last_of(is_changed, p, caller));
}

/* An exchange of 16 bytes, for which __atomic_compare_exchange_n would be a call of another library. */
typedef unsigned __int128 uint128_t;

ATOMIC __attribute__((target("cx16")))
static int exchange_16(volatile uint128_t *p, uint128_t *expected, uint128_t value) {
    uint128_t old = *expected;
    *expected = __sync_val_compare_and_swap(p, old, value);
    return *expected == old;
}

ATOMIC static uint128_t load_16(const volatile uint128_t *p) {
    uint128_t value = 0;
    exchange_16((volatile uint128_t *)p, &value, 0);         /* writes 0 where there is 0 */
    return value;
}

ATOMIC static void store_16(volatile uint128_t *p, uint128_t value) {
    uint128_t old = load_16(p);
    while (!exchange_16(p, &old, value)) ;
}

/* The operations as the macros below name them: of up to 8 bytes the compiler's own. */
#define LOAD(p) __atomic_load_n(p, __ATOMIC_SEQ_CST)
#define STORE(p, value) __atomic_store_n(p, value, __ATOMIC_SEQ_CST)
#define EXCHANGE(p, expected, value) \
    __atomic_compare_exchange_n(p, expected, value, 0, __ATOMIC_SEQ_CST, __ATOMIC_SEQ_CST)

#define ATOMICALLY(operation, bits, perform, last) \
    if (begin_quick_atomic(operation, (uint64_t)p, bits / 8, size_and_order(bits / 8, order), caller)) { \
        perform; \
        end_quick_atomic(last); \
    } else { \
        thread *t = before_atomic(operation, p, size_and_order(bits / 8, order), caller); \
        perform; \
        after_atomic(t, last); \
    }

int load_acquire(const int *p, uint64_t caller) {
    int value, order = __ATOMIC_ACQUIRE;
    if (!self || self->inside) return LOAD(p);
    ATOMICALLY(OP_ATOMIC_LOAD, 32, value = LOAD(p), 0)
    return value;
}

/* `old` is the parameter that has the expected value, at this address. */
#define COMPARE_EXCHANGE(bits, type, name, exchange, result, r, old, address) \
    ATOMIC PUBLIC result __tsan_atomic##bits##_compare_exchange_##name(volatile type *p, type old, \
        type value, int order, int fail_order) { \
        thread *t = enter(MAY_YIELD); \
        int done = exchange(p, address, value); \
        after_exchange(t, done ? OP_ATOMIC_UPDATE : OP_ATOMIC_LOAD, done, p, \
                       size_and_order(bits / 8, done ? order : fail_order), CALLER); \
        return r; \
    }

/* Whether it changes the value is known by what it takes: once it is done the object may be gone, where no
   turn keeps other threads away. */
#define UPDATE(bits, type, name, load, exchange, new_value) \
    ATOMIC PUBLIC type __tsan_atomic##bits##_##name(volatile type *p, type value, int order) { \
        uint64_t caller = CALLER; \
        type old, new; \
        ATOMICALLY(OP_ATOMIC_UPDATE, bits, \
                   old = load(p); do new = new_value; \
                       while (!exchange(p, &old, new)), last_of(new != old, p, caller)) \
        return old; \
    }
/* One that leaves the value as it was is an update: it may be of a loop for a lock. A quick one repeats, and
   counts as one that changes it. */
#define SWAP(bits, type, load, exchange) \
    ATOMIC PUBLIC type __tsan_atomic##bits##_exchange(volatile type *p, type value, int order) { \
        uint64_t caller = CALLER, what = size_and_order(bits / 8, order); \
        int is_quick = begin_quick_atomic(OP_ATOMIC_UPDATE, (uint64_t)p, bits / 8, what | IS_EXCHANGE, \
                                          caller); \
        thread *t = is_quick ? 0 : enter(MAY_YIELD); \
        type old = load(p); \
        while (!exchange(p, &old, value)) ; \
        if (is_quick) end_quick_atomic(last_of(old != value, p, caller)); \
        else after_exchange(t, OP_ATOMIC_UPDATE, old != value, p, old != value ? what | IS_EXCHANGE : what, \
                            caller); \
        return old; \
    }
#define ATOMICS(bits, type, load, store, compare) \
    ATOMIC PUBLIC type __tsan_atomic##bits##_load(const volatile type *p, int order) { \
        uint64_t caller = CALLER; \
        type value; \
        ATOMICALLY(OP_ATOMIC_LOAD, bits, value = load(p), last_of(0, p, caller)) \
        return value; \
    } \
    ATOMIC PUBLIC void __tsan_atomic##bits##_store(volatile type *p, type value, int order) { \
        uint64_t caller = CALLER; \
        ATOMICALLY(OP_ATOMIC_STORE, bits, store(p, value), 0) \
    } \
    SWAP(bits, type, load, compare) \
    UPDATE(bits, type, fetch_add, load, compare, old + value) \
    UPDATE(bits, type, fetch_sub, load, compare, old - value) \
    UPDATE(bits, type, fetch_and, load, compare, old & value) \
    UPDATE(bits, type, fetch_or, load, compare, old | value) \
    UPDATE(bits, type, fetch_xor, load, compare, old ^ value) \
    UPDATE(bits, type, fetch_nand, load, compare, ~(old & value)) \
    COMPARE_EXCHANGE(bits, type, strong, compare, int, done, *expected, expected) \
    COMPARE_EXCHANGE(bits, type, weak, compare, int, done, *expected, expected) \
    COMPARE_EXCHANGE(bits, type, val, compare, type, expected, expected, &expected)
ATOMICS(8, uint8_t, LOAD, STORE, EXCHANGE)
ATOMICS(16, uint16_t, LOAD, STORE, EXCHANGE)
ATOMICS(32, uint32_t, LOAD, STORE, EXCHANGE)
ATOMICS(64, uint64_t, LOAD, STORE, EXCHANGE)
ATOMICS(128, uint128_t, load_16, store_16, exchange_16)

PUBLIC void __tsan_atomic_thread_fence(int order) {
    thread *t = others ? enter(MAY_YIELD) : 0;
    if (t) {
        end_copy(t);
        put(t, OP_FENCE, 0, order & 7, CALLER);
        leave(t);
    }
    __atomic_thread_fence(__ATOMIC_SEQ_CST);
}
PUBLIC void __tsan_atomic_signal_fence(int order) { __atomic_signal_fence(__ATOMIC_SEQ_CST); }
