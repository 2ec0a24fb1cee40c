/* a node is used after the lock under which it was found; its memory has come again by then */
#include <pthread.h>
#include <stdio.h>
#include <stdlib.h>
#include <unistd.h>
struct node { long value, more; };
static pthread_mutex_t lock = PTHREAD_MUTEX_INITIALIZER;
static struct node *newest;
static void put(struct node *node) {
    pthread_mutex_lock(&lock);
    newest = node;
    pthread_mutex_unlock(&lock);
}
static void *look(void *unused) {
    pthread_mutex_lock(&lock);
    struct node *node = newest;
    pthread_mutex_unlock(&lock);
    usleep(3000);
    printf("%ld\n", node->value); /* BLAME */
    return unused;
}
int main(void) {
    pthread_t thread;
    struct node *node = malloc(sizeof *node), *other;
    node->value = 1;
    put(node);
    pthread_create(&thread, 0, look, 0);
    usleep(1000);
    put(0);
    free(node);
    other = malloc(sizeof *other);
    other->value = 2;
    put(other);
    pthread_join(thread, 0);
    free(other);
    return 0;
}
