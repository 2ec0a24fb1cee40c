/* Two owners: one frees the message while the other still reads it. */
#include <pthread.h>
#include <stdlib.h>
struct message { int size; char text[20]; };
static pthread_mutex_t m = PTHREAD_MUTEX_INITIALIZER;
static void *sender(void *it) {
    struct message *message = it;
    pthread_mutex_lock(&m);
    int size = message->size;
    pthread_mutex_unlock(&m);
    return size == 99 ? it : 0;
}
int main(void) {
    pthread_t t;
    struct message *message = calloc(1, sizeof *message);
    message->size = 5;
    pthread_create(&t, 0, sender, message);
    free(message);
    pthread_join(t, 0);
    return 0;
}
