/* Leaves by the way that is named in its first word, after a race and an exec in vain. */
#define _GNU_SOURCE
#include <pthread.h>
#include <signal.h>
#include <stdlib.h>
#include <string.h>
#include <sys/wait.h>
#include <unistd.h>
static int x;
static void *work(void *unused) { return x++, NULL; } /* RACE */
int main(int count, char **words) {
    char *true_[] = {"true", 0}, *none[] = {0}, *way = words[1];
    pthread_t a, b;
    pthread_create(&a, 0, work, 0);
    pthread_create(&b, 0, work, 0);
    pthread_join(a, 0);
    pthread_join(b, 0);
    execv("/no/such/program", true_);
    if (!strcmp(way, "kill")) kill(getpid(), SIGKILL);
    if (!strcmp(way, "_exit")) _exit(0);
    if (!strcmp(way, "_Exit")) _Exit(0);
    if (!strcmp(way, "quick_exit")) quick_exit(0);
    if (!strcmp(way, "execl")) execl("/bin/sh", "sh", "-c", "exit 0", (char *)0);
    if (!strcmp(way, "execlp")) execlp("sh", "sh", "-c", "exit 0", (char *)0);
    if (!strcmp(way, "execle")) execle("/bin/sh", "sh", "-c", "exit ${N-1}", (char *)0, (char *[]){"N=0", 0});
    if (!strcmp(way, "execv")) execv("/bin/true", true_);
    if (!strcmp(way, "execvp")) execvp("true", true_);
    if (!strcmp(way, "execvpe")) execvpe("true", true_, none);
    if (!strcmp(way, "execve")) execve("/bin/true", true_, none);
    if (strcmp(way, "vfork")) return 1;
    pid_t child = vfork();
    if (!child) execv("/bin/true", true_);
    int status;
    return waitpid(child, &status, 0) != child || status;
}
