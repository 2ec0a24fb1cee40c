/* A server's worker: a child gives up its rights (setuid; call: by a system call that the recorder doesn't see) or its root
   (chroot), and then starts a thread. Its messages go nowhere by then. With a second word its parent has ended before. */
#define _GNU_SOURCE
#include <fcntl.h>
#include <pthread.h>
#include <string.h>
#include <sys/syscall.h>
#include <sys/wait.h>
#include <unistd.h>

static long count;

static void *work(void *unused) {
    count++; /* RACE */
    return unused;
}

static int call(long number, long first) {
    long result;
    __asm__ volatile("syscall" : "=a"(result) : "a"(number), "D"(first) : "rcx", "r11", "memory");
    return result;
}

static int give_up(const char *what) {
    if (!strcmp(what, "setuid")) return setuid(65534);
    if (!strcmp(what, "call")) return call(SYS_setuid, 65534);
    return chdir("/var") || chroot(".");
}

int main(int argc, char **argv) {
    pid_t parent = getpid(), child = fork();
    int status;
    if (child) return argc == 2 && (waitpid(child, &status, 0) != child || status);
    pthread_t t;
    while (argc > 2 && getppid() == parent) usleep(1000);
    dup2(open("/dev/null", O_WRONLY), 2);
    if (give_up(argv[1])) return 2;
    pthread_create(&t, 0, work, 0);
    work(0);
    return pthread_join(t, 0);
}
