/* Several messages at once: who receives comes after who sent. */
#define _GNU_SOURCE
#include <pthread.h>
#include <sys/socket.h>
#include <sys/uio.h>
static int ends[2];
static long given;
static volatile long unordered;

static void *work(void *unused) {
    char bytes[2];
    struct iovec part = {bytes, sizeof bytes};
    struct mmsghdr message = {.msg_hdr = {.msg_iov = &part, .msg_iovlen = 1}};
    if (recvmmsg(ends[0], &message, 1, 0, 0) != 1) return work;
    long taken = given;
    unordered = taken;                                       /* RACE */
    return 0;
}

int main(void) {
    char bytes[2] = "a";
    struct iovec part = {bytes, sizeof bytes};
    struct mmsghdr message = {.msg_hdr = {.msg_iov = &part, .msg_iovlen = 1}};
    pthread_t t;
    void *failed;
    if (socketpair(AF_UNIX, SOCK_DGRAM, 0, ends)) return 1;
    pthread_create(&t, 0, work, 0);
    given = 1;
    if (sendmmsg(ends[1], &message, 1, 0) != 1) return 1;
    unordered = 2;                                           /* RACE */
    pthread_join(t, &failed);
    return failed != 0;
}
