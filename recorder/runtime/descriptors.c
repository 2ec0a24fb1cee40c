/* Descriptors: the order that they give, and the recorder's own, which the program never meets. */
#include "library.h"
#include <netinet/in.h>
#include <poll.h>
#include <sys/epoll.h>
#include <sys/eventfd.h>
#include <sys/socket.h>
#include <sys/uio.h>
#include <sys/un.h>

/* ---- a write, close or addition to an epoll comes before what reads it, gets its number or is woken ---- */
enum { DESCRIPTORS = 1 << 16 };
static int pair_of[DESCRIPTORS];       /* of all that leads to the same data the number of one; plus one */
static uint64_t key_of[DESCRIPTORS];   /* equal at both ends of a connection or of a named FIFO; or 0 */
static int keyed;                      /* from this number on none has a key */
enum { IS_KNOWN = 1, HAS_DATAGRAMS };
static char is_known[DESCRIPTORS];
static char connects[DESCRIPTORS];     /* where a connection may come about that isn't known yet */

static int is_small(int f) { return f >= 0 && f < DESCRIPTORS; }
static int first_of(int f) { return pair_of[f] ? pair_of[f] - 1 : f; }
static void *number_of(int f) { return (void *)(FIRST_DESCRIPTOR + (uint64_t)(unsigned)f * 16); }

/* It is another file now. */
static void is_new(int f) { if (is_small(f)) pair_of[f] = is_known[f] = connects[f] = key_of[f] = 0; }

/* The descriptor that has this key already, also if it is closed by now, is of the same data. Both ends may
   come here at once; no handler of a signal does meanwhile. */
static _Atomic int busy;
void unlock_keys(void) { busy = 0; }
static void know_by_key(int f, uint64_t key) {
    thread *t = self && !self->inside ? self : 0;
    if (t) begin_inside(t);
    while (atomic_exchange(&busy, 1)) syscall(SYS_sched_yield);
    is_known[f] = IS_KNOWN;
    connects[f] = 0;
    if (keyed <= f) keyed = f + 1;
    for (int other = 0; other < keyed; other++)
        if (key_of[other] == key && other != f) pair_of[f] = first_of(other) + 1;
    key_of[f] = key;
    atomic_store(&busy, 0);
    if (t) end_inside(t);
}

static void know_file(int f);

static void *data_of(int f) {
    if (is_small(f) && others && !is_known[f]) know_file(f);
    return (char *)number_of(is_small(f) ? first_of(f) : f) + 8;
}

static int has_data_of(int f, int copy) {                    /* a duplicate */
    is_new(copy);
    if (is_small(f) && is_small(copy)) pair_of[copy] = (data_of(f), first_of(f) + 1);
    return copy;
}

/* ---- connections within the process: both ends have the same two addresses ---- */
static uint64_t mixed(uint64_t sum, const void *bytes, size_t size) {
    const unsigned char *p = bytes;
    for (size_t i = 0; i < size; i++) sum = (sum ^ p[i]) * 0x100000001b3ull;
    return sum;
}

/* The sum of an address; the same for one of IPv4 that is written as one of IPv6. */
static uint64_t sum_of(const struct sockaddr_storage *a, socklen_t size) {
    const struct sockaddr_in *four = (const void *)a;
    const struct sockaddr_in6 *six = (const void *)a;
    if (a->ss_family == AF_INET) return mixed(mixed(4, &four->sin_addr, 4), &four->sin_port, 2);
    if (a->ss_family == AF_INET6 && IN6_IS_ADDR_V4MAPPED(&six->sin6_addr))
        return mixed(mixed(4, &six->sin6_addr.s6_addr[12], 4), &six->sin6_port, 2);
    if (a->ss_family == AF_INET6) return mixed(mixed(6, &six->sin6_addr, 16), &six->sin6_port, 2);
    return mixed(1, a, least(size, sizeof *a));
}

static void know_connection(int f) {
    struct sockaddr_storage here = {0}, there = {0};
    socklen_t here_size = sizeof here, there_size = sizeof there;
    int saved = errno;
    if (is_small(f) && !getsockname(f, (void *)&here, &here_size)
        && !getpeername(f, (void *)&there, &there_size))
        know_by_key(f, (sum_of(&here, here_size) + sum_of(&there, there_size)) | 1ull << 63);
    errno = saved;
}

/* The call that made the connection may not have returned yet. */
static void know_accepted(int f) {
    for (const char *c = connects; (c = memchr(c, 1, connects + DESCRIPTORS - c)); c++)
        know_connection(c - connects);
    know_connection(f);
}

/* A FIFO may be opened by its name at both ends, and a connection may have come about by now. */
static void know_file(int f) {
    struct stat status;
    int saved = errno, type = 0;
    socklen_t size = sizeof type;
    is_known[f] = IS_KNOWN;
    if (!pair_of[f] && !syscall(SYS_fstat, f, &status)) {
        if (S_ISFIFO(status.st_mode)) know_by_key(f, (status.st_dev * 31 + status.st_ino) | 1ull << 63);
        if (S_ISSOCK(status.st_mode)) getsockopt(f, SOL_SOCKET, SO_TYPE, &type, &size);
        if (type == SOCK_DGRAM) is_known[f] = HAS_DATAGRAMS, connects[f] = 0;
        else if (type) know_connection(f);
    }
    errno = saved;
}

/* ---- datagrams: who gets one gets what all gave that were sent to its port, or name, before ---- */
static void *sent_to(const struct sockaddr_storage *a, socklen_t size) {
    const struct sockaddr_un *local = (const void *)a;
    if (a->ss_family == AF_INET || a->ss_family == AF_INET6)
        return number_of(DESCRIPTORS + ((const struct sockaddr_in *)a)->sin_port);
    if (*local->sun_path) size = strnlen((char *)local, sizeof *local);     /* else it may have zeros in it */
    return number_of(2 * DESCRIPTORS + mixed(1, a, least(size, sizeof *a)) % (1 << 24));
}

static int has_datagrams(int f) {
    return is_small(f) && others && (data_of(f), is_known[f] == HAS_DATAGRAMS);
}

/* By the address that it was sent to; without one, the peer's. */
static void *data_sent(int f, const void *to, socklen_t size) {
    struct sockaddr_storage a = {0};
    int saved = errno;
    void *data = data_of(f);
    if (!to) size = sizeof a;
    size = least(size, sizeof a);
    if (has_datagrams(f) && (to ? copy_in(&a, to, size) : !getpeername(f, (void *)&a, &size)))
        data = sent_to(&a, size);
    errno = saved;
    return data;
}

static void *data_got(int f) {
    struct sockaddr_storage a = {0};
    socklen_t size = sizeof a;
    int saved = errno, is_datagram = has_datagrams(f) && !getsockname(f, (void *)&a, &size);
    errno = saved;
    return is_datagram ? sent_to(&a, size) : data_of(f);
}

static void note_descriptor(enum operation operation, void *what, uint64_t caller) {
    if (others) note(operation, what, caller);
}

/* Before a call that may wait: one of a descriptor that never waits keeps the turn. */
static void let_others_run_at(int f) {
    if (others && recording && !(syscall(SYS_fcntl, f, F_GETFL) & O_NONBLOCK)) let_others_run();
}

static void note_sent_to(int f, const void *to, socklen_t size, uint64_t caller) {
    note_descriptor(OP_POST, data_sent(f, to, size), caller);
    let_others_run_at(f);
}
static void note_sent(int f, uint64_t caller) { note_sent_to(f, 0, 0, caller); }

void note_transfer(enum operation operation, int f, uint64_t caller) {
    void *data = data_of(f);
    if (!is_small(f) || !(pair_of[f] || key_of[f])) return;
    if (operation == OP_POST) note_sent(f, caller);
    else note_descriptor(operation, data, caller);
}

/* ---- what is read and written goes through memory of the program's ---- */
enum { MOST_BYTES = 0x7ffff000 };      /* that the kernel takes at once */

/* On the stack between this function and the thread's first one all is there. */
static int is_in_use(const void *from, size_t bytes) {
    uint64_t p = (uint64_t)from, here = (uint64_t)__builtin_dwarf_cfa();
    uint64_t low = self ? (uint64_t)self->stack : ~0ull, end = self ? low + self->stack_size : 0;
    return here > low && p >= here && p < end && bytes <= end - p;
}

int copy_in(void *to, const void *from, size_t bytes) {
    struct iovec here = {to, bytes}, there = {(void *)from, bytes};
    int saved = errno, done = is_in_use(from, bytes);
    if (done) memcpy(to, from, bytes);
    else done = syscall(SYS_process_vm_readv, getpid(), &here, 1, &there, 1, 0) == (ssize_t)bytes;
    errno = saved;
    return done;
}

/* As many bytes of several pieces of memory, in their order. */
static void note_pieces(uint64_t seen, enum operation operation, const struct iovec *pieces, size_t count,
                        size_t bytes) {
    struct iovec some[16];
    if (!seen) return;
    for (size_t i = 0, k = 0; i < least(count, IOV_MAX) && bytes; i++, k = i % 16) {
        if (!k && !copy_in(some, &pieces[i], least(count - i, 16) * sizeof *some)) return;
        size_t part = least(some[k].iov_len, bytes);
        note_range(seen, operation, some[k].iov_base, part);
        bytes -= part;
    }
}

static void note_message(uint64_t seen, enum operation operation, const struct msghdr *given, size_t bytes) {
    struct msghdr m;
    if (seen && copy_in(&m, given, sizeof m)) note_pieces(seen, operation, m.msg_iov, m.msg_iovlen, bytes);
}

static void note_sent_message(uint64_t seen, int f, const struct msghdr *given, uint64_t caller) {
    struct msghdr m = {0};
    note_message(seen, OP_READ, given, MOST_BYTES);
    if (has_datagrams(f)) copy_in(&m, given, sizeof m);
    note_sent_to(f, m.msg_name, m.msg_namelen, caller);
}

/* What is sent is read before the post; what is received is written after the wait. A result is no more than
   an int has. */
#define TRANSFERS(name) \
    WRAPS(ssize_t, name, (int f, void *p, word n, word third, word fourth, word fifth, word sixth))
#define TRANSFERRED(name) (int)REAL_AS(name)(f, p, n, third, fourth, fifth, sixth)
#define SENDS_BY(name, sends) \
    TRANSFERS(name) { \
        uint64_t seen __attribute__((unused)) = begin_call(CALLER); \
        sends; \
        return TRANSFERRED(name); \
    }
#define SENDS(name, accesses) SENDS_BY(name, accesses; note_sent(f, CALLER))
#define RECEIVES(name, accesses) \
    TRANSFERS(name) { \
        let_others_run_at(f); \
        ssize_t r = TRANSFERRED(name); \
        if (r < 0) let_others_run();   /* one of them may have to send it first */ \
        if (r < 0) return r; \
        note_descriptor(OP_WAIT, data_got(f), CALLER); \
        uint64_t seen = begin_call(CALLER); \
        accesses; \
        return r; \
    }
#define SENDS_BYTES if (seen) READS(p, least(n, MOST_BYTES))
#define SENDS_PIECES note_pieces(seen, OP_READ, p, (int)n, MOST_BYTES)
#define GETS_BYTES(n) if (seen) WRITES(p, n)
#define GETS_PIECES note_pieces(seen, OP_WRITE, p, (int)n, r)
#define GETS_EVENTS GETS_BYTES(r * sizeof(struct epoll_event))
SENDS(write, SENDS_BYTES)
SENDS(writev, SENDS_PIECES)
SENDS(send, SENDS_BYTES)
SENDS_BY(sendmsg, note_sent_message(seen, f, p, CALLER))
SENDS_BY(sendto, SENDS_BYTES; note_sent_to(f, (void *)fourth, fifth, CALLER))
SENDS_BY(sendmmsg, struct mmsghdr *m = p;
         for (unsigned i = 0; i < least((unsigned)n, IOV_MAX); i++)
             note_sent_message(seen, f, &m[i].msg_hdr, CALLER))
SENDS(eventfd_write, ) SENDS(shutdown, ) SENDS(timerfd_settime, ) SENDS(sendfile, ) SENDS(sendfile64, )
PUBLIC int epoll_ctl(int f, int o, int g, struct epoll_event *e) {
    note_descriptor(OP_POST, data_of(f), CALLER);
    return REAL(epoll_ctl)(f, o, g, e);
}
RECEIVES(read, GETS_BYTES(r))
RECEIVES(eventfd_read, GETS_BYTES(sizeof(eventfd_t)))
RECEIVES(readv, GETS_PIECES)
RECEIVES(recv, GETS_BYTES(least(r, n)))
RECEIVES(recvmsg, note_message(seen, OP_WRITE, p, r))
RECEIVES(recvmmsg, struct mmsghdr *m = p;
         for (int i = 0; i < r; i++) note_message(seen, OP_WRITE, &m[i].msg_hdr, m[i].msg_len))
RECEIVES(recvfrom, GETS_BYTES(least(r, n)))
/* As the compiler calls them with -D_FORTIFY_SOURCE. */
RECEIVES(__read_chk, GETS_BYTES(r))
RECEIVES(__recv_chk, GETS_BYTES(least(r, n)))
RECEIVES(__recvfrom_chk, GETS_BYTES(least(r, n)))
RECEIVES(epoll_wait, GETS_EVENTS)
RECEIVES(epoll_pwait, GETS_EVENTS)
RECEIVES(epoll_pwait2, GETS_EVENTS)
/* What is ready to be read, or has ended, was made so before. */
#define POLLS(name) \
    WRAPS(int, name, (struct pollfd *all, nfds_t count, word third, word fourth, word fifth)) { \
        let_others_run(); \
        int r = REAL_AS(name)(all, count, third, fourth, fifth); \
        for (nfds_t k = 0; r > 0 && k < count; k++) \
            if (all[k].revents & ~POLLOUT) note_descriptor(OP_WAIT, data_of(all[k].fd), CALLER); \
        return r; \
    }
POLLS(poll) POLLS(ppoll) POLLS(__poll_chk) POLLS(__ppoll_chk)
/* At a place of a file, which is no order: a pipe has none. */
BEFORE(ssize_t, pwrite, (int f, const void *p, size_t n, off_t at), (f, p, n, at), SENDS_BYTES)
BEFORE(ssize_t, pwritev, (int f, const struct iovec *p, int n, off_t at), (f, p, n, at), SENDS_PIECES)
AFTER(ssize_t, pread, (int f, void *p, size_t n, off_t at), (f, p, n, at), if (r > 0) WRITES(p, r))
AFTER(ssize_t, preadv, (int f, const struct iovec *p, int n, off_t at), (f, p, n, at), if (r > 0) GETS_PIECES)
PUBLIC __typeof__(pwrite) pwrite64 __attribute__((alias("pwrite")));
PUBLIC __typeof__(pwritev) pwritev64 __attribute__((alias("pwritev")));
PUBLIC __typeof__(pread) pread64 __attribute__((alias("pread")));
PUBLIC __typeof__(preadv) preadv64 __attribute__((alias("preadv")));
/* A number that is given again; an accepted connection gets what was done before it was made, too. */
#define GIVES_NUMBER(name, know) \
    WRAPS(int, name, (word first, word second, word third, word fourth)) { \
        let_others_run(); \
        int r = REAL_AS(name)(first, second, third, fourth); \
        if (r < 0) return r; \
        is_new(r); \
        know; \
        note_descriptor(OP_WAIT, number_of(r), CALLER); \
        return r; \
    }
#define KNOW_ACCEPTED (know_accepted(r), note_descriptor(OP_WAIT, data_of(r), CALLER))
GIVES_NUMBER(accept, KNOW_ACCEPTED)
GIVES_NUMBER(accept4, KNOW_ACCEPTED)
GIVES_NUMBER(socket, ) GIVES_NUMBER(eventfd, ) GIVES_NUMBER(epoll_create1, ) GIVES_NUMBER(timerfd_create, )
GIVES_NUMBER(open, ) GIVES_NUMBER(open64, ) GIVES_NUMBER(openat, ) GIVES_NUMBER(openat64, )
PUBLIC int connect(int f, const struct sockaddr *a, socklen_t n) {
    note_sent(f, CALLER);
    if (is_small(f)) connects[f] = 1;
    int r = REAL(connect)(f, a, n);
    if (is_small(f)) is_known[f] = 0;  /* it may still come about */
    if (!r && is_small(f)) know_file(f);
    return r;
}

static int note_pair(int error, int *f, uint64_t caller) {
    if (error || !is_small(f[0]) || !is_small(f[1])) return error;
    note_descriptor(OP_WAIT, number_of(f[0]), caller);
    note_descriptor(OP_WAIT, number_of(f[1]), caller);
    is_new(f[0]);
    is_new(f[1]);
    pair_of[f[0]] = pair_of[f[1]] = f[0] + 1;
    return error;
}
PUBLIC int pipe(int f[2]) { return note_pair(REAL(pipe)(f), f, CALLER); }
PUBLIC int pipe2(int f[2], int k) { return note_pair(REAL(pipe2)(f, k), f, CALLER); }
PUBLIC int socketpair(int d, int k, int p, int f[2]) {
    return note_pair(REAL(socketpair)(d, k, p, f), f, CALLER);
}
/* ---- the end of a descriptor; the recorder's own are not the program's to close ---- */
PUBLIC int close(int f) {
    if (is_kept(f)) {
        errno = EBADF;
        return -1;
    }
    note_descriptor(OP_POST, number_of(f), CALLER);
    note_descriptor(OP_POST, data_of(f), CALLER);
    /* its key stays for a connection that isn't accepted yet */
    if (is_small(f)) pair_of[f] = is_known[f] = connects[f] = 0;
    return REAL(close)(f);
}

PUBLIC int dup2(int f, int g) {
    leave_number(g);
    return f == g ? REAL(dup2)(f, g) : has_data_of(f, REAL(dup2)(f, g));
}
PUBLIC int dup3(int f, int g, int flags) {
    leave_number(g);
    return has_data_of(f, REAL(dup3)(f, g, flags));
}
PUBLIC int dup(int f) { return has_data_of(f, REAL(dup)(f)); }
WRAPS(int, fcntl, (int f, int command, word argument)) {
    int r = REAL_AS(fcntl)(f, command, argument);
    return command == F_DUPFD || command == F_DUPFD_CLOEXEC ? has_data_of(f, r) : r;
}
PUBLIC __typeof__(as_fcntl) as_fcntl64 __asm__("fcntl64") __attribute__((alias("fcntl")));

PUBLIC int close_range(unsigned first, unsigned last, int flags) {
    unsigned ours = next_kept(first);
    if (first > last || ours > last || ours == ~0u) return REAL(close_range)(first, last, flags);
    if (ours > first && REAL(close_range)(first, ours - 1, flags)) return -1;
    return ours == last ? 0 : close_range(ours + 1, last, flags);
}
PUBLIC void closefrom(int first) {
    unsigned ours = first < 0 ? 0 : first;
    for (; next_kept(ours) != ~0u; ours++)
        if (!is_kept(ours)) syscall(SYS_close, ours);
    REAL(closefrom)(ours);
}
