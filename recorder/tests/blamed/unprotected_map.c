/* Go's list: a table of services, whose registration takes the lock and whose lookup doesn't. */
#include <pthread.h>
static struct { int key; long value; } services[8];
static int count;
static pthread_mutex_t service_lock = PTHREAD_MUTEX_INITIALIZER;
static void add(int key, long value) {
    pthread_mutex_lock(&service_lock);
    services[count].key = key;
    services[count].value = value;
    count++;
    pthread_mutex_unlock(&service_lock);
}
static long lookup(int key) {
    for (int k = 0; k < count; k++)
        if (services[k].key == key) return services[k].value;
    return 0;
}
static void *work(void *u) { for (int k = 0; k < 3; k++) add(k, 7); return u; }
int main(void) {
    pthread_t t;
    pthread_create(&t, 0, work, 0);
    long found = 0;
    for (int k = 0; k < 50; k++) found += lookup(2);
    pthread_join(t, 0);
    return found == 1;
}
