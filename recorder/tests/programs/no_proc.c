/* As its first word says it gives up /proc (chroot; close: also where that was opened before), its rights (setuid) or both. Then a thread fills a block in one call while
   main reads its last byte, and prints what it got; and a thread sleeps in a call that the recorder doesn't see while others
   take turns. */
#define _GNU_SOURCE
#include <linux/magic.h>
#include <pthread.h>
#include <signal.h>
#include <stdatomic.h>
#include <stdio.h>
#include <stdlib.h>
#include <string.h>
#include <sys/stat.h>
#include <sys/syscall.h>
#include <sys/vfs.h>
#include <unistd.h>

enum { BYTES = 64 << 20, ROUNDS = 8 };
static char block[BYTES];
static int count;
int racy;
static atomic_int filling;
static pthread_mutex_t lock = PTHREAD_MUTEX_INITIALIZER;

static void *fill(void *value) {
    atomic_store_explicit(&filling, (int)(long)value, memory_order_relaxed);
    memset(block, (int)(long)value, BYTES);                  /* RACE */
    return 0;
}

static void *sleeps(void *signals) {
    int signal;
    racy = 1;                                                /* RACE */
    sigwait(signals, &signal);
    return 0;
}

static void *work(void *unused) {
    for (int i = 0; i < 100; i++) {
        pthread_mutex_lock(&lock);
        count++;
        pthread_mutex_unlock(&lock);
    }
    racy = 2;                                                /* RACE */
    return 0;
}

static int give_up(const char *what) {
    char folder[] = "/tmp/no_procXXXXXX";
    struct statfs of;
    if (strcmp(what, "setuid")) {
        if (!mkdtemp(folder) || chdir(folder) || rmdir(folder) || chroot(".")) return 1;
    }
    for (int f = 3; !strcmp(what, "close") && f < 1024; f++)
        if (!fstatfs(f, &of) && of.f_type == PROC_SUPER_MAGIC) syscall(SYS_close, f);
    if (!strcmp(what, "setuid") || !strcmp(what, "both")) return setgid(65534) || setuid(65534);
    return 0;
}

int main(int argc, char **argv) {
    pthread_t t, u;
    sigset_t signals;
    sigemptyset(&signals);
    sigaddset(&signals, SIGTERM);
    pthread_sigmask(SIG_BLOCK, &signals, 0);
    memset(block, 0, BYTES);
    if (give_up(argv[1])) return 2;
    for (long i = 1; i <= ROUNDS; i++) {
        pthread_create(&t, 0, fill, (void *)i);
        while (atomic_load_explicit(&filling, memory_order_relaxed) != i) usleep(100);
        usleep(1000);
        printf("%d\n", block[BYTES - 1]);                    /* RACE */
        pthread_join(t, 0);
    }
    pthread_create(&t, 0, sleeps, &signals);
    pthread_create(&u, 0, work, 0);
    pthread_join(u, 0);
    kill(getpid(), SIGTERM);
    pthread_join(t, 0);
    return 0;
}
