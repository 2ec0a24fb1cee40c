/* What functions of the C library read and write: of files, sockets, time and names. */
#define _GNU_SOURCE
#include <arpa/inet.h>
#include <fcntl.h>
#include <limits.h>
#include <pthread.h>
#include <pwd.h>
#include <stdio.h>
#include <stdlib.h>
#include <string.h>
#include <sys/epoll.h>
#include <sys/random.h>
#include <sys/socket.h>
#include <sys/time.h>
#include <sys/uio.h>
#include <sys/utsname.h>
#include <time.h>
#include <unistd.h>

static char t[50][64];
static struct iovec pieces[4][2];
static struct msghdr message[2];
static char *line, path[PATH_MAX];
static size_t room;
static int nowhere, zeros, ends[2], others_ends[2], waiting;
static FILE *text, *out;
static time_t now, times_of[2];
static struct timeval of_day;
static struct timespec clock_now;
static struct tm day[4];
static struct utsname machine;
static struct in_addr address[2];
static struct passwd user, *found;
static struct epoll_event events[2];
static __thread volatile long total;

static void *work(void *unused) {
    fputs(t[0], out); /* RACE */
    puts(t[1]); /* RACE */
    total += fwrite(t[2], 2, 2, out); /* RACE */
    total += fread(t[3], 1, 3, text); /* RACE */
    total += fgets(t[4], 64, text) != 0; /* RACE */
    total += getline(&line, &room, text); /* RACE */
    total += getdelim(&line, &room, 't', text); /* RACE */
    total += read(zeros, t[8], 2); /* RACE */
    total += pread(zeros, t[9], 2, 0); /* RACE */
    total += recv(ends[1], t[10], 2, 0); /* RACE */
    total += recvfrom(ends[1], t[11], 2, 0, 0, 0); /* RACE */
    total += write(nowhere, t[12], 2); /* RACE */
    total += pwrite(nowhere, t[13], 2, 0); /* RACE */
    total += send(others_ends[0], t[14], 2, 0); /* RACE */
    total += sendto(others_ends[0], t[15], 2, 0, 0, 0); /* RACE */
    total += readv(zeros, pieces[0], 2); /* RACE */
    total += writev(nowhere, pieces[1], 2); /* RACE */
    total += recvmsg(ends[1], &message[0], 0); /* RACE */
    total += sendmsg(others_ends[0], &message[1], 0); /* RACE */
    total += epoll_wait(waiting, events, 2, 0); /* RACE */
    total += getrandom(t[16], 2, 0); /* RACE */
    time(&times_of[0]); /* RACE */
    gettimeofday(&of_day, 0); /* RACE */
    clock_gettime(CLOCK_MONOTONIC, &clock_now); /* RACE */
    total += localtime(&times_of[1]) != 0; /* RACE */
    total += gmtime(&now)->tm_sec; /* RACE */
    localtime_r(&now, &day[0]); /* RACE */
    gmtime_r(&now, &day[1]); /* RACE */
    total += mktime(&day[2]); /* RACE */
    ctime_r(&now, t[17]); /* RACE */
    asctime_r(&day[3], t[18]); /* RACE */
    total += getcwd(t[19], 64) != 0; /* RACE */
    total += realpath("/", path) != 0; /* RACE */
    total += readlink("/proc/self/exe", t[21], 3); /* RACE */
    gethostname(t[22], 64); /* RACE */
    uname(&machine); /* RACE */
    total += inet_pton(AF_INET, t[31], &address[0]); /* RACE */
    total += inet_aton("1.2.3.4", &address[0]); /* RACE */
    total += inet_ntop(AF_INET, &now, t[32], 64) != 0; /* RACE */
    getpwuid_r(0, &user, t[48], 64, &found); /* RACE */
    return 0;
}

int main(void) {
    pthread_t other;
    for (int i = 0; i < 50; i++) strcpy(t[i], "1.2.3.4");
    nowhere = open("/dev/null", O_WRONLY);
    zeros = open("/dev/zero", O_RDONLY);
    text = fmemopen("line one\nline two\nline three\n", 29, "r");
    out = fopen("/dev/null", "w");
    socketpair(AF_UNIX, SOCK_STREAM, 0, ends);
    socketpair(AF_UNIX, SOCK_STREAM, 0, others_ends);
    strcpy(t[49], "eight...");
    write(ends[0], t[49], 8), write(ends[0], t[49], 8), write(ends[0], t[49], 8);
    waiting = epoll_create1(0);
    epoll_ctl(waiting, EPOLL_CTL_ADD, others_ends[1], &(struct epoll_event){.events = EPOLLOUT});
    for (int i = 0; i < 4; i++) pieces[i][0] = (struct iovec){t[40 + i], 2}, pieces[i][1] = (struct iovec){t[40 + i] + 4, 2};
    message[0] = (struct msghdr){.msg_iov = pieces[2], .msg_iovlen = 2};
    message[1] = (struct msghdr){.msg_iov = pieces[3], .msg_iovlen = 2};
    pthread_create(&other, 0, work, 0);
    t[0][7] = 0; /* RACE */
    t[1][7] = 0; /* RACE */
    t[2][3] = '.'; /* RACE */
    t[2][4] = '3';
    total += t[3][2]; /* RACE */
    total += t[3][3];
    total += t[4][6]; /* RACE */
    total += t[4][7];
    total += room; /* RACE */
    total += line != 0; /* RACE */
    total += t[8][1]; /* RACE */
    total += t[8][2];
    total += t[9][1]; /* RACE */
    total += t[9][2];
    total += t[10][1]; /* RACE */
    total += t[10][2];
    total += t[11][1]; /* RACE */
    total += t[11][2];
    t[12][1] = '.'; /* RACE */
    t[12][2] = '2';
    t[13][1] = '.'; /* RACE */
    t[13][2] = '2';
    t[14][1] = '.'; /* RACE */
    t[14][2] = '2';
    t[15][1] = '.'; /* RACE */
    t[15][2] = '2';
    total += t[40][5]; /* RACE */
    total += t[40][3];
    t[41][5] = '.'; /* RACE */
    t[41][3] = '.';
    total += t[42][5]; /* RACE */
    total += t[42][3];
    t[43][5] = '.'; /* RACE */
    t[43][3] = '.';
    total += events[0].events; /* RACE */
    total += events[1].events;
    total += t[16][1]; /* RACE */
    total += t[16][2];
    total += times_of[0]; /* RACE */
    total += of_day.tv_sec; /* RACE */
    total += clock_now.tv_sec; /* RACE */
    times_of[1] = 1; /* RACE */
    total += gmtime(&now)->tm_sec; /* RACE */
    total += day[0].tm_sec; /* RACE */
    total += day[1].tm_sec; /* RACE */
    total += day[2].tm_sec; /* RACE */
    total += t[17][20]; /* RACE */
    total += t[18][10]; /* RACE */
    total += t[19][0]; /* RACE */
    total += path[1]; /* RACE */
    total += path[2];
    total += t[21][2]; /* RACE */
    total += t[21][3];
    total += t[22][0]; /* RACE */
    total += machine.sysname[0]; /* RACE */
    t[31][7] = 0; /* RACE */
    total += address[1].s_addr;
    total += address[0].s_addr; /* RACE */
    total += t[32][7]; /* RACE */
    total += t[32][8];
    total += found != 0; /* RACE */
    pthread_join(other, 0);
    return total == 1;
}
