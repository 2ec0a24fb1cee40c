/* an entry is used after the lock under which it was found */
#include <pthread.h>
#include <stdio.h>
#include <stdlib.h>
#include <string.h>
#include <unistd.h>
struct entry { struct entry *next; int key; long hits; char text[24]; };
static struct entry *table[8];
static pthread_mutex_t lock = PTHREAD_MUTEX_INITIALIZER;
static struct entry *find(int key) {
    struct entry *e = table[key & 7];
    while (e && e->key != key) e = e->next;
    return e;
}
static void insert(int key) {
    struct entry *e = calloc(1, sizeof *e);
    e->key = key;
    snprintf(e->text, sizeof e->text, "value %d", key);
    pthread_mutex_lock(&lock);
    e->next = table[key & 7];
    table[key & 7] = e;
    pthread_mutex_unlock(&lock);
}
static void evict(int key) {
    pthread_mutex_lock(&lock);
    struct entry **at = &table[key & 7];
    while (*at && (*at)->key != key) at = &(*at)->next;
    struct entry *e = *at;
    if (e) *at = e->next;
    pthread_mutex_unlock(&lock);
    free(e);
}
static void *serve(void *unused) {
    long sum = 0;
    for (int k = 0; k < 200; k++) {
        pthread_mutex_lock(&lock);
        struct entry *e = find(k % 16);
        pthread_mutex_unlock(&lock);
        if (e) {
            e->hits++;
            sum += strlen(e->text);
        }
    }
    return (void *)sum;
}
static void *clean(void *unused) {
    for (int k = 0; k < 16; k++) {
        usleep(20);
        evict(k);
    }
    return unused;
}
int main(void) {
    pthread_t a, b;
    for (int k = 0; k < 16; k++) insert(k);
    pthread_create(&a, 0, serve, 0);
    pthread_create(&b, 0, clean, 0);
    pthread_join(a, 0);
    pthread_join(b, 0);
    return 0;
}
