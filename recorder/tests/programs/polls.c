/* What was done before a descriptor is ready to be read, or has ended, comes before the poll that says so; and what was before
   a character of a stream before it is got. */
#define _GNU_SOURCE
#include <poll.h>
#include <pthread.h>
#include <stdio.h>
#include <unistd.h>
static int data[3], racy, ready[2], over[2], characters[2];
static FILE *in, *out;
static void *work(void *unused) {
    racy++;                                                  /* RACE */
    data[0] = 1;
    if (write(ready[1], "x", 1) != 1) return &data;
    data[1] = 1;
    close(over[1]);
    data[2] = 1;
    putc_unlocked('a', out);
    fflush(out);
    return 0;
}
int main(void) {
    pthread_t t;
    void *failed;
    if (pipe(ready) || pipe(over) || pipe(characters)) return 1;
    in = fdopen(characters[0], "r");
    out = fdopen(characters[1], "w");
    pthread_create(&t, 0, work, 0);
    racy++;                                                  /* RACE */
    struct pollfd one = {ready[0], POLLIN}, other = {over[0], POLLIN};
    if (poll(&one, 1, -1) != 1) return 2;
    data[0]++;
    if (ppoll(&other, 1, 0, 0) != 1) return 3;
    data[1]++;
    if (getc_unlocked(in) != 'a') return 4;
    data[2]++;
    pthread_join(t, &failed);
    return failed || data[0] + data[1] + data[2] != 6;
}
