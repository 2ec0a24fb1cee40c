/* The list's head is looked at before the lock is taken. */
#include <pthread.h>
#include <stdlib.h>
struct node { struct node *next; int value; };
static struct { pthread_mutex_t lock; struct node *head; } list = {.lock = PTHREAD_MUTEX_INITIALIZER};
static void push(int value) {
    struct node *new = malloc(sizeof *new);
    new->value = value;
    pthread_mutex_lock(&list.lock);
    new->next = list.head;
    list.head = new;
    pthread_mutex_unlock(&list.lock);
}
static int pop(void) {
#ifdef FIXED
    pthread_mutex_lock(&list.lock);
    if (!list.head) {
        pthread_mutex_unlock(&list.lock);
        return 0;
    }
#else
    if (!list.head) return 0;
    pthread_mutex_lock(&list.lock);
#endif
    struct node *first = list.head;
    if (first) list.head = first->next;
    pthread_mutex_unlock(&list.lock);
    int value = first ? first->value : 0;
    free(first);
    return value;
}
static void *give(void *u) { for (int i = 1; i < 20; i++) push(i); return u; }
static void *take(void *u) { for (int i = 1; i < 20; i++) pop(); return u; }
int main(void) {
    pthread_t a, b;
    pthread_create(&a, 0, give, 0);
    pthread_create(&b, 0, take, 0);
    pthread_join(a, 0);
    return pthread_join(b, 0);
}
