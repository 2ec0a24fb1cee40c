/* More threads than a record has numbers, each of which ends before the next begins; and two at the end that don't. */
#include <pthread.h>
#include <stdio.h>
#include <string.h>

enum { THREADS = 66000 };
static int count, racy;
static void *work(void *unused) {
    count++;
    return 0;
}

static void *work_with_another(void *unused) {
    racy++; /* RACE */
    return 0;
}

static int begin(pthread_t *t, void *(*function)(void *)) {
    int error = pthread_create(t, 0, function, 0);
    if (error) printf("%s\n", strerror(error));
    return error;
}

int main(void) {
    pthread_t t, u;
    for (int i = 0; i < THREADS; i++) {
        if (begin(&t, work)) return 1;
        pthread_join(t, 0);
    }
    if (begin(&t, work_with_another) || begin(&u, work_with_another)) return 1;
    pthread_join(t, 0);
    pthread_join(u, 0);
    printf("%d\n", count + racy);
    return 0;
}
