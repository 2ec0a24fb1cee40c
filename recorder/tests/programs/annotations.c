/* A program that tells ThreadSanitizer of its own locks and order, which are of relaxed atomics: by that they order nothing. */
#include <pthread.h>
#include <sched.h>
#include <stdatomic.h>
void AnnotateBenignRaceSized(const char *, int, const volatile void *, unsigned long, const char *);
void AnnotateHappensBefore(const char *, int, const volatile void *), AnnotateHappensAfter(const char *, int, const volatile void *);
void AnnotateRWLockAcquired(const char *, int, const volatile void *, long), AnnotateRWLockReleased(const char *, int, const volatile void *, long);
void AnnotateIgnoreReadsBegin(const char *, int), AnnotateIgnoreReadsEnd(const char *, int), AnnotateThreadName(const char *, int, const char *);
void __tsan_mutex_pre_lock(void *, unsigned), __tsan_mutex_post_lock(void *, unsigned, int), __tsan_mutex_post_unlock(void *, unsigned);
int __tsan_mutex_pre_unlock(void *, unsigned);
void *__tsan_create_fiber(unsigned), *__tsan_get_current_fiber(void);
void __tsan_switch_to_fiber(void *, unsigned), __tsan_destroy_fiber(void *);

static atomic_int lock, rwlock, ready, given;
static long told, untold, told_rw, benign, published, in_fiber;
static void *fiber;
static __thread long sum;

static void take(atomic_int *l) { while (atomic_exchange_explicit(l, 1, memory_order_relaxed)) sched_yield(); }
static void give(atomic_int *l) { atomic_store_explicit(l, 0, memory_order_relaxed); }

static void count(void) {
    __tsan_mutex_pre_lock(&lock, 0);
    take(&lock);
    __tsan_mutex_post_lock(&lock, 0, 0);
    told++;
    __tsan_mutex_pre_unlock(&lock, 0);
    give(&lock);
    __tsan_mutex_post_unlock(&lock, 0);
    take(&rwlock);                                           /* the lock's own atomic is at its address */
    AnnotateRWLockAcquired(__FILE__, __LINE__, &rwlock, 0);
    sum += told_rw;
    AnnotateRWLockReleased(__FILE__, __LINE__, &rwlock, 0);
    give(&rwlock);
    take(&rwlock);
    AnnotateRWLockAcquired(__FILE__, __LINE__, &rwlock, 1);
    told_rw++;
    AnnotateRWLockReleased(__FILE__, __LINE__, &rwlock, 1);
    untold++;                                                /* RACE */
    give(&rwlock);
    benign++;                                                /* RACE: listed all the same */
}

static void *work(void *unused) {
    AnnotateThreadName(__FILE__, __LINE__, "work");
    AnnotateBenignRaceSized(__FILE__, __LINE__, &benign, sizeof benign, "a count that may be wrong");
    for (int i = 0; i < 20; i++) count();
    while (!atomic_load_explicit(&ready, memory_order_relaxed)) sched_yield();
    AnnotateHappensAfter(__FILE__, __LINE__, &ready);
    AnnotateIgnoreReadsBegin(__FILE__, __LINE__);
    sum += published;
    AnnotateIgnoreReadsEnd(__FILE__, __LINE__);
    while (!atomic_load_explicit(&given, memory_order_relaxed)) sched_yield();
    void *own = __tsan_get_current_fiber();
    __tsan_switch_to_fiber(fiber, 0);
    sum += in_fiber;
    __tsan_switch_to_fiber(own, 1);
    return (void *)sum;
}

int main(void) {
    pthread_t t;
    fiber = __tsan_create_fiber(0);
    pthread_create(&t, 0, work, 0);
    for (int i = 0; i < 20; i++) count();
    published = 1;
    AnnotateHappensBefore(__FILE__, __LINE__, &ready);
    atomic_store_explicit(&ready, 1, memory_order_relaxed);
    void *own = __tsan_get_current_fiber();
    in_fiber = 1;
    __tsan_switch_to_fiber(fiber, 0);
    __tsan_switch_to_fiber(own, 1);
    atomic_store_explicit(&given, 1, memory_order_relaxed);
    pthread_join(t, 0);
    __tsan_destroy_fiber(fiber);
    return told != 40 || told_rw != 40;
}
