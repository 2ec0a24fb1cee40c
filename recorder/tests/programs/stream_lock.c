/* The lock of a stream is a mutex, which its owner may take again: who takes it comes after who gave it back. */
#include <pthread.h>
#include <stdio.h>

static FILE *stream;
int count, racy;                       /* of a static one gcc takes it that these calls don't see it */

static void *work(void *p) {
    racy++; /* RACE */
    for (int k = 0; k < 20; k++) {
        if (k % 2) flockfile(stream);
        else while (ftrylockfile(stream)) ;
        flockfile(stream);
        count++;
        funlockfile(stream);
        putc_unlocked('.', stream);
        count++;
        funlockfile(stream);
    }
    return p;
}

int main(void) {
    pthread_t t;
    stream = fopen("/dev/null", "w");
    pthread_create(&t, 0, work, 0);
    work(0);
    pthread_join(t, 0);
    return count != 80;
}
