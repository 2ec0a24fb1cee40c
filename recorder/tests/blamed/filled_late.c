/* memory comes again; its new owner hands it on before it is filled, and nobody uses what was freed */
#include <pthread.h>
#include <stdio.h>
#include <stdlib.h>
#include <unistd.h>
struct node { long value, more; };
static pthread_mutex_t lock = PTHREAD_MUTEX_INITIALIZER;
static struct node *newest;
static void put(struct node *node) {
    pthread_mutex_lock(&lock);
    newest = node;
    pthread_mutex_unlock(&lock);
}
static void *look(void *unused) {
    for (struct node *node = 0; !node; usleep(100)) {
        pthread_mutex_lock(&lock);
        node = newest;
        pthread_mutex_unlock(&lock);
        if (node) printf("%ld\n", node->value);
    }
    return unused;
}
int main(void) {
    pthread_t thread;
    struct node *node = malloc(sizeof *node), *other;
    put(node);
    put(0);
    pthread_create(&thread, 0, look, 0);
    free(node);
    other = malloc(sizeof *other);
    put(other);
    other->value = 2; /* BLAME */
    pthread_join(thread, 0);
    free(other);
    return 0;
}
