/* What is sent as a datagram comes before what receives it: by a port or a name, to a connected socket's peer,
   as one message or several. */
#define _GNU_SOURCE
#include <netinet/in.h>
#include <pthread.h>
#include <stdio.h>
#include <stddef.h>
#include <string.h>
#include <sys/socket.h>
#include <sys/un.h>
#include <unistd.h>

enum { WAYS = 6 };
static int at_port, at_name, replies, data[WAYS], unordered;
static struct sockaddr_in port;
static struct sockaddr_un name = {.sun_family = AF_UNIX};
static socklen_t name_size;
static char byte;
static struct iovec piece = {&byte, 1};

static int socket_at(int family, void *address, socklen_t size) {
    int s = socket(family, SOCK_DGRAM, 0);
    if (bind(s, address, size)) _exit(2);
    return s;
}

static void *sends(void *unused) {
    int s = socket(AF_INET, SOCK_DGRAM, 0), t = socket(AF_INET, SOCK_DGRAM, 0);
    int u = socket(AF_UNIX, SOCK_DGRAM, 0);
    struct msghdr one = {.msg_name = &port, .msg_namelen = sizeof port, .msg_iov = &piece, .msg_iovlen = 1};
    struct mmsghdr some = {{.msg_iov = &piece, .msg_iovlen = 1}};
    data[0] = 1;
    if (sendto(s, "x", 1, 0, (void *)&port, sizeof port) != 1) _exit(3);
    data[1] = 1;
    if (sendmsg(s, &one, 0) != 1) _exit(4);
    if (connect(t, (void *)&port, sizeof port)) _exit(5);
    data[2] = 1;
    if (sendmmsg(t, &some, 1, 0) != 1) _exit(6);
    data[3] = 1;
    if (write(t, "x", 1) != 1) _exit(7);
    data[4] = 1;
    if (sendto(u, "x", 1, 0, (void *)&name, name_size) != 1) _exit(8);
    if (recv(t, &byte, 1, 0) != 1) _exit(9);                 /* main's answer */
    data[5]++;
    unordered++; /* RACE */
    return unused;
}

int main(void) {
    pthread_t t;
    char got, from[2];
    struct iovec its = {&got, 1};
    struct msghdr one = {.msg_iov = &its, .msg_iovlen = 1};
    struct mmsghdr some = {one};
    struct sockaddr_in sender;
    socklen_t size = sizeof port;
    port = (struct sockaddr_in){.sin_family = AF_INET, .sin_addr = {htonl(INADDR_LOOPBACK)}};
    at_port = socket_at(AF_INET, &port, sizeof port);
    getsockname(at_port, (void *)&port, &size);
    snprintf(name.sun_path + 1, 50, "shb datagrams %d", getpid());
    name_size = offsetof(struct sockaddr_un, sun_path) + 1 + strlen(name.sun_path + 1);
    at_name = socket_at(AF_UNIX, &name, name_size);
    pthread_create(&t, 0, sends, 0);
    if (recv(at_port, &got, 1, 0) != 1) _exit(10);
    data[0]++;
    if (recvmsg(at_port, &one, 0) != 1) _exit(11);
    data[1]++;
    if (recvmmsg(at_port, &some, 1, 0, 0) != 1) _exit(12);
    data[2]++;
    size = sizeof sender;
    if (recvfrom(at_port, &got, 1, 0, (void *)&sender, &size) != 1) _exit(13);
    data[3]++;
    if (read(at_name, &got, 1) != 1) _exit(14);
    data[4]++;
    data[5] = 1;
    if (sendto(at_port, "y", 1, 0, (void *)&sender, size) != 1) _exit(15);
    unordered++; /* RACE */
    pthread_join(t, 0);
    return data[5] != 2;
}
