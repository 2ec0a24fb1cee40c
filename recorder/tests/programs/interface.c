/* What a program may call of ThreadSanitizer's library by name: accesses, at places that it names, locks, order, questions. */
#include <pthread.h>
#include <sched.h>
#include <stdatomic.h>
#include <stdint.h>
#include <stdlib.h>
#define OF_CALLER(n) \
    void __tsan_read##n##_pc(void *, void *), __tsan_write##n##_pc(void *, void *); \
    __attribute__((noinline)) static void read##n(void *p) { __tsan_read##n##_pc(p, __builtin_return_address(0)); } \
    __attribute__((noinline)) static void write##n(void *p) { __tsan_write##n##_pc(p, __builtin_return_address(0)); }
OF_CALLER(1) OF_CALLER(2) OF_CALLER(4) OF_CALLER(8) OF_CALLER(16)
void __tsan_read_range_pc(void *, unsigned long, void *), __tsan_write_range_pc(void *, unsigned long, void *);
uint16_t __sanitizer_unaligned_load16(void *);
uint32_t __sanitizer_unaligned_load32(void *);
uint64_t __sanitizer_unaligned_load64(void *);
void __sanitizer_unaligned_store16(void *, uint16_t), __sanitizer_unaligned_store32(void *, uint32_t), __sanitizer_unaligned_store64(void *, uint64_t);
void __tsan_external_read(void *, void *, void *), __tsan_external_write(void *, void *, void *);
void __tsan_java_alloc(void *, size_t), __tsan_java_move(void *, void *, size_t), __tsan_java_free(void *, size_t);
void __tsan_java_mutex_lock(void *), __tsan_java_mutex_unlock(void *), __tsan_java_mutex_lock_rec(void *, int);
void __tsan_java_mutex_read_lock(void *), __tsan_java_mutex_read_unlock(void *), __tsan_java_acquire(void *), __tsan_java_release(void *);
int __tsan_java_mutex_unlock_rec(void *), __sanitizer_acquire_crash_state(void), __sanitizer_get_ownership(void *);
void __tsan_testonly_barrier_init(uint64_t *, unsigned), __tsan_testonly_barrier_wait(uint64_t *);
void *__tsan_get_current_report(void);
const char *__tsan_locate_address(void *, char *, size_t, void **, size_t *), *ThreadSanitizerQuery(const char *);
size_t __sanitizer_get_allocated_size(void *), __sanitizer_get_current_allocated_bytes(void), __sanitizer_get_heap_size(void);

static char named[6][16], object;
static volatile char met, heap[16], moved[16];
static uint8_t unaligned[3][16];
static long counted, published;
static atomic_int lock, ready;
static uint64_t before, after;

static void name_places(void) {
    write1(named[0]);                                        /* RACE */
    read1(named[0]);                                         /* RACE */
    write2(named[1]);                                        /* RACE */
    read2(named[1]);                                         /* RACE */
    write4(named[2]);                                        /* RACE */
    read4(named[2]);                                         /* RACE */
    write8(named[3]);                                        /* RACE */
    read8(named[3]);                                         /* RACE */
    write16(named[4]);                                       /* RACE */
    read16(named[4]);                                        /* RACE */
}

__attribute__((noinline)) static void use_ranges(void *p) {
    __tsan_write_range_pc(p, 5, __builtin_return_address(0));
    __tsan_read_range_pc(p, 5, __builtin_return_address(0));
}

__attribute__((noinline)) static void use_object(void) {
    __tsan_external_write(&object, __builtin_return_address(0), 0);
    __tsan_external_read(&object, 0, 0);                     /* RACE: nobody is named */
}

static void store_unaligned(void) {
    __sanitizer_unaligned_store16(unaligned[0] + 1, 0x102);  /* RACE */
    __sanitizer_unaligned_load16(unaligned[0] + 1);          /* RACE */
    __sanitizer_unaligned_store32(unaligned[1] + 3, 0x1020304);  /* RACE */
    __sanitizer_unaligned_load32(unaligned[1] + 3);          /* RACE */
    __sanitizer_unaligned_store64(unaligned[2] + 5, 0x102030405060708);  /* RACE */
    __sanitizer_unaligned_load64(unaligned[2] + 5);          /* RACE */
}

static void take(void) { while (atomic_exchange_explicit(&lock, 1, memory_order_relaxed)) sched_yield(); }
static void give(void) { atomic_store_explicit(&lock, 0, memory_order_relaxed); }

static void count(void) {              /* under a lock of which only its own words tell */
    take();
    __tsan_java_mutex_lock(&lock);
    counted++;
    __tsan_java_mutex_unlock(&lock);
    give();
    take();
    __tsan_java_mutex_lock_rec(&lock, 1);
    counted++;
    __tsan_java_mutex_unlock_rec(&lock);
    give();
    take();
    __tsan_java_mutex_read_lock(&lock);
    if (!counted) abort();
    __tsan_java_mutex_read_unlock(&lock);
    give();
}

static void do_all(void) {
    name_places();
    use_ranges(named[5]);                                    /* RACE */
    use_object();                                            /* RACE */
    store_unaligned();
    count();
}

static void *work(void *unused) {
    do_all();
    __tsan_testonly_barrier_wait(&before);
    met = 1;                                                 /* RACE: the barrier orders nothing */
    __tsan_java_alloc((void *)heap, sizeof heap);                    /* new variables at an old address */
    heap[0] = 1;
    __tsan_java_move((void *)heap, (void *)moved, sizeof moved);
    moved[0] = 1;
    while (!atomic_load_explicit(&ready, memory_order_relaxed)) sched_yield();
    __tsan_java_acquire(&ready);
    if (!published) abort();
    __tsan_testonly_barrier_wait(&after);
    return 0;
}

static int are_right(char *block) {
    return __sanitizer_get_ownership(block) && __sanitizer_get_allocated_size(block) >= 100
        && __sanitizer_get_current_allocated_bytes() >= 100 && __sanitizer_get_heap_size() >= 100
        && __sanitizer_acquire_crash_state() && !__sanitizer_acquire_crash_state() && !__tsan_get_current_report()
        && !*__tsan_locate_address(block, 0, 0, 0, 0) && *ThreadSanitizerQuery("pure_happens_before") == '1'
        && __sanitizer_unaligned_load16(unaligned[0] + 1) == 0x102 && __sanitizer_unaligned_load32(unaligned[1] + 3) == 0x1020304
        && __sanitizer_unaligned_load64(unaligned[2] + 5) == 0x102030405060708 && counted == 4;
}

int main(void) {
    pthread_t t;
    __tsan_testonly_barrier_init(&before, 2);
    __tsan_testonly_barrier_init(&after, 2);
    pthread_create(&t, 0, work, 0);
    do_all();
    met = 2;                                                 /* RACE */
    heap[0] = moved[0] = 2;
    __tsan_testonly_barrier_wait(&before);
    published = 1;
    __tsan_java_release(&ready);
    atomic_store_explicit(&ready, 1, memory_order_relaxed);
    __tsan_testonly_barrier_wait(&after);
    pthread_join(t, 0);
    char *block = malloc(100);
    int right = are_right(block);
    free(block);
    return !right;
}
