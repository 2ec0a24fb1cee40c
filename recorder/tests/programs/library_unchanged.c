/* Calls of the C library with what it accepts, refuses or faults at, while another thread runs: it prints what they did, and
   that errno stayed as it was. At the end there is a race. */
#define _GNU_SOURCE
#include <errno.h>
#include <limits.h>
#include <pthread.h>
#include <setjmp.h>
#include <signal.h>
#include <stdint.h>
#include <stdio.h>
#include <stdlib.h>
#include <string.h>
#include <sys/socket.h>
#include <sys/uio.h>
#include <time.h>
#include <unistd.h>

static char *volatile nothing;
static char *volatile nowhere = (char *)8;
static volatile size_t none, most = SIZE_MAX;
static _Atomic int done;
int racy;
static sigjmp_buf before;

static void *work(void *unused) {
    while (!done) ;
    racy = 1; /* RACE */
    return 0;
}

static void fault(int signal) { siglongjmp(before, 1); }

static void null_pointers(void) {
    char text[PATH_MAX];
    printf("%d %d %s\n", snprintf(nothing, none, "%d", 12345), snprintf(text, sizeof text, "%s %.3s", nothing, nothing), text);
    printf("%d %d %ld\n", memcmp(nothing, nothing, none), strncmp(nothing, nothing, none), (long)strnlen(nothing, none));
    qsort(nothing, none, 4, 0);
    char *path = realpath("/", nothing);
    printf("%s %d %d\n", path, realpath(nothing, text) == 0, time((time_t *)nothing) > 0);
}

static void what_is_refused(void) {
    char *end = (char *)"as before", text[8] = "";
    struct iovec piece = {nowhere, 4};
    long number = strtol("12", &end, 1);
    printf("%ld %s %s\n", number, end, strerror(errno));
    int ends[2];
    pipe(ends);
#define SAYS(call) do { long r = call; printf("%ld %s\n", r, r < 0 ? strerror(errno) : ""); } while (0)
    SAYS(write(ends[1], nowhere, 4));
    SAYS(writev(ends[1], (struct iovec *)nowhere, 1));
    SAYS(writev(ends[1], &piece, 1));
    SAYS(sendmsg(ends[1], (struct msghdr *)nowhere, 0));
    SAYS(write(-1, text, most));
    printf("%d %d\n", sscanf("x", "%d", (int *)nowhere), sscanf("", "%d", (int *)nowhere));
}

static void formats(void) {
    char text[64];
    int count = 0, behind = 0;
    long wide = 7;
    sprintf(text, "%2$s-%1$s", "one", "two");
    printf("%s\n", text);
    sprintf(text, "%3d|%-*.*f|%Lg|%c|%%|%hhd%n|%s", 7, 8, 2, 1.5, 2.5L, 'x', 300, &count, "end");
    printf("%s %d\n", text, count);
    printf("%d", sscanf("12 word 0x1f 3.5 rest", "%ld %4s%*c%x %f%n", &wide, text, &count, (float *)(text + 8), &behind));
    printf(" %ld %s %d %.1f %d\n", wide, text, count, *(float *)(text + 8), behind);
}

static int is_kept(void) {
    char text[64];
    errno = 77;
    for (int i = 0; i < 10000 && errno == 77; i++) {
        sprintf(text, "%d", i);
        if (strlen(text) + strcmp(text, "x") + (memchr(text, '7', 3) != 0) == 99) break;
    }
    return errno;
}

int main(void) {
    pthread_t other;
    pthread_create(&other, 0, work, 0);
    null_pointers();
    what_is_refused();
    formats();
    printf("errno %d\n", is_kept());
    signal(SIGSEGV, fault);
    if (!sigsetjmp(before, 1)) printf("%zu\n", strlen(nowhere));
    if (!sigsetjmp(before, 1)) printf("%s\n", strcpy(nowhere, "x"));
    done = 1;
    racy = 2; /* RACE */
    pthread_join(other, 0);
    puts("ended");
    return 0;
}
