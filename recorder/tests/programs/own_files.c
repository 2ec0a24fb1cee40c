/* Closes what it may have inherited in the way that its first word says, opens a file of its own, and fills it while its two
   threads race.  Prints the number of that file and how many of its bytes are as they were written. */
#define _GNU_SOURCE
#include <fcntl.h>
#include <pthread.h>
#include <stdio.h>
#include <stdlib.h>
#include <string.h>
#include <sys/syscall.h>
#include <unistd.h>

enum { NUMBERS = 1100, BYTES = 1 << 20 };
static int count, kept[2];
static pthread_barrier_t begun;
static char block[BYTES];

static void *work(void *own) {
    count++;                                                 /* RACE */
    pthread_barrier_wait(&begun);
    for (volatile int *n = own; *n < 60000; ) ++*n;          /* the record takes more than its first steps */
    return 0;
}

static void close_others(const char *way) {
    if (!strcmp(way, "close_range")) close_range(3, ~0u, 0);
    if (!strcmp(way, "closefrom")) closefrom(3);
    for (int f = 3; f < NUMBERS; f++) {
        if (!strcmp(way, "close")) close(f);
        if (!strcmp(way, "dup2") && (dup2(0, f) != f || close(f))) exit(1);
        if (!strcmp(way, "dup3") && (dup3(0, f, O_CLOEXEC) != f || close(f))) exit(1);
        if (!strcmp(way, "syscall")) syscall(SYS_close, f);
    }
}

int main(int argc, char **argv) {
    pthread_t a, b;
    int right = 0;
    close_others(argv[1]);
    if (argc > 3 && rename(argv[3], argv[2])) return 1;      /* away with the record, too */
    int f = open(argc > 3 ? "other" : argv[2], O_RDWR | O_CREAT | O_TRUNC, 0644);
    for (int n = f + 1; n < NUMBERS; n++) dup2(f, n);        /* whatever number is used now is this file's */
    pthread_barrier_init(&begun, 0, 2);
    pthread_create(&a, 0, work, &kept[0]);
    pthread_create(&b, 0, work, &kept[1]);
    memset(block, 'x', BYTES);
    if (write(f, block, BYTES) != BYTES) return 1;
    pthread_join(a, 0);
    pthread_join(b, 0);
    memset(block, 0, BYTES);
    if (pread(f, block, BYTES, 0) != BYTES) return 1;
    for (int i = 0; i < BYTES; i++) right += block[i] == 'x';
    printf("%d: %d of %ld\n", f, right, (long)lseek(f, 0, SEEK_END));
    return 0;
}
