/* A program that logs its events. `ready` publishes `price`; main reads `count` without the lock: a race. */
#include <stdatomic.h>
#include <unistd.h>
#include "shb_log.h"

static long count, price;
static atomic_int ready;
static pthread_mutex_t door = PTHREAD_MUTEX_INITIALIZER;

static void *sell(void *unused) {
    long is_ready = 0, paid;
    shb_thread = "seller";
    while (!is_ready) {
        usleep(1000);
        EVENT("vr(ready)", is_ready = atomic_load_explicit(&ready, memory_order_acquire));
    }
    EVENT("r(price)", paid = price);
    pthread_mutex_lock(&door);
    EVENT("acq(door)", );                              /* after the lock was taken */
    EVENT("w(count)", count += paid);
    EVENT("rel(door)", );                              /* before it is released */
    pthread_mutex_unlock(&door);
    return unused;
}

int main(void) {
    pthread_t seller;
    long seen;
    shb_file = fopen("app.std", "w");
    if (!shb_file)
        return 1;
    EVENT("fork(seller)", );                           /* before the thread can begin */
    pthread_create(&seller, NULL, sell, NULL);
    EVENT("w(price)", price = 7);
    EVENT("vw(ready)", atomic_store_explicit(&ready, 1, memory_order_release));
    EVENT("r(count)", seen = count);                   /* the lock isn't held here */
    pthread_join(seller, NULL);
    EVENT("join(seller)", );                           /* after it has ended */
    return fclose(shb_file) || seen > 7;
}
