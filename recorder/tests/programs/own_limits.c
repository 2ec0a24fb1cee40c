/* Sets a limit on itself, named by its first word, or reserves a terabyte, and then its two threads race. */
#define _GNU_SOURCE
#include <linux/filter.h>
#include <linux/seccomp.h>
#include <pthread.h>
#include <stddef.h>
#include <stdio.h>
#include <stdlib.h>
#include <string.h>
#include <sys/mman.h>
#include <sys/prctl.h>
#include <sys/resource.h>
#include <sys/syscall.h>
#include <unistd.h>

enum { MEGABYTE = 1 << 20 };
static int count, kept[2];
static pthread_barrier_t begun;

static void *work(void *own) {
    count++;                                                 /* RACE */
    pthread_barrier_wait(&begun);
    for (volatile int *n = own; *n < 60000; ) ++*n;          /* the record takes more than its first steps */
    return 0;
}

static int lock_memory(void) {
    char line[200];
    long locked = -1;
    if (mlockall(MCL_CURRENT)) return perror("mlockall"), 1;
    FILE *f = fopen("/proc/self/status", "r");
    while (fgets(line, sizeof line, f)) sscanf(line, "VmLck: %ld kB", &locked);
    fclose(f);
    printf("%s\n", locked >= 0 && locked < 512 * 1024 ? "locked" : "too much is locked");
    return 0;
}

/* A call that isn't needed any more kills. */
#define KILLS(n) BPF_JUMP(BPF_JMP | BPF_JEQ | BPF_K, n, 0, 1), BPF_STMT(BPF_RET | BPF_K, SECCOMP_RET_KILL_PROCESS)
static int limit_calls(int by_syscall) {
    struct sock_filter filter[] = {BPF_STMT(BPF_LD | BPF_W | BPF_ABS, offsetof(struct seccomp_data, nr)), KILLS(SYS_fallocate),
                                   KILLS(SYS_openat), KILLS(SYS_ftruncate), KILLS(SYS_fstat), KILLS(SYS_getpid),
                                   BPF_STMT(BPF_RET | BPF_K, SECCOMP_RET_ALLOW)};
    struct sock_fprog program = {sizeof filter / sizeof *filter, filter};
    if (prctl(PR_SET_NO_NEW_PRIVS, 1, 0, 0, 0)) return 1;
    if (by_syscall) return syscall(SYS_seccomp, SECCOMP_SET_MODE_FILTER, 0, &program);
    return prctl(PR_SET_SECCOMP, SECCOMP_MODE_FILTER, &program);
}

static int limit_addresses(void) {
    struct rlimit two_gigabytes = {2048ul * MEGABYTE, 2048ul * MEGABYTE};
    return setrlimit(RLIMIT_AS, &two_gigabytes) || !malloc(1024ul * MEGABYTE);
}

static int reserve(void) {
    return mmap(0, 1ul << 40, PROT_READ | PROT_WRITE, MAP_PRIVATE | MAP_ANONYMOUS | MAP_NORESERVE, -1, 0) == MAP_FAILED;
}

int main(int argc, char **argv) {
    pthread_t a, b;
    struct rlimit small = {MEGABYTE, MEGABYTE}, little = {8 * MEGABYTE, 8 * MEGABYTE};
    int failed = 0;
    if (!strcmp(argv[1], "fsize")) failed = setrlimit(RLIMIT_FSIZE, &small);
    if (!strcmp(argv[1], "mlockall")) failed = lock_memory();
    if (!strcmp(argv[1], "mlockall-limited"))
        failed = setrlimit(RLIMIT_MEMLOCK, &little) || (!getuid() && setuid(65534)) || lock_memory();
    if (!strcmp(argv[1], "addresses")) failed = limit_addresses();
    if (!strcmp(argv[1], "reserve")) failed = reserve();
    if (!strcmp(argv[1], "prctl")) failed = limit_calls(0);
    if (!strcmp(argv[1], "seccomp")) failed = limit_calls(1);
    pthread_barrier_init(&begun, 0, 2);
    pthread_create(&a, 0, work, &kept[0]);
    pthread_create(&b, 0, work, &kept[1]);
    pthread_join(a, 0);
    pthread_join(b, 0);
    if (!failed) puts("ended");
    return failed;
}
