/* What is written to a descriptor comes before what is read at its other end: through a duplicate, a FIFO that is opened by
   its name, a connection within the process, and streams. Each duplicate is written to when the one before was read. At -O2
   the calls are __read_chk and the like. */
#define _GNU_SOURCE
#define _FORTIFY_SOURCE 2
#include <fcntl.h>
#include <netinet/in.h>
#include <pthread.h>
#include <stdatomic.h>
#include <stdio.h>
#include <stdlib.h>
#include <sys/sendfile.h>
#include <sys/socket.h>
#include <sys/stat.h>
#include <sys/timerfd.h>
#include <unistd.h>

enum { WAYS = 11 };
static atomic_int got;                                      /* it orders nothing */
static int data[WAYS], reply, racy, ends[2], copies[3], streams[2], timer, users[100];
static volatile size_t one = 1, most = 9;
static char folder[] = "/tmp/descriptorsXXXXXX";
static struct sockaddr_in at = {.sin_family = AF_INET};

static void send_byte(int f) {
    if (write(f, "x", 1) != 1) exit(1);
}
static void get_byte(int f) {
    char bytes[8];
    if (read(f, bytes, one) != 1) exit(1);
}
static void use_number(void) {
    int f = open("/dev/null", O_RDONLY);
    users[f]++;
    close(f);
}

static void *work(void *unused) {
    racy++;                                                  /* RACE */
    use_number();
    for (int i = 0; i < 3; i++) {
        data[i] = 1;
        send_byte(copies[i]);
        while (atomic_load_explicit(&got, memory_order_relaxed) <= i) ;
    }
    int fifo = open("fifo", O_WRONLY), f = socket(AF_INET, SOCK_STREAM | SOCK_NONBLOCK, 0);
    data[3] = 1;
    send_byte(fifo);
    data[4] = 1;
    connect(f, (struct sockaddr *)&at, sizeof at);           /* it is accepted before anything here knows that it is made */
    while (atomic_load_explicit(&got, memory_order_relaxed) < 4) ;
    send_byte(f);
    fcntl(f, F_SETFL, 0);
    get_byte(f);
    FILE *out = fdopen(streams[1], "w");
    data[5] = 1;
    fputs("x\n", out);
    fflush(out);
    data[6] = 1;
    fprintf(out, "%d\n", 7);
    fflush(out);
    data[7] = 1;
    fprintf(out, "\n");
    fclose(out);
    data[8] = 1;
    timerfd_settime(timer, 0, &(struct itimerspec){.it_value.tv_nsec = 1}, 0);
    int file = open("/proc/self/exe", O_RDONLY);
    data[9] = 1;
    sendfile(f, file, 0, 1);
    data[10] = 1;
    shutdown(f, SHUT_WR);                                    /* the other end reads that it has ended */
    return reply == 1 ? 0 : &data;
}

int main(void) {
    pthread_t t;
    socklen_t size = sizeof at;
    void *failed;
    int listener = socket(AF_INET, SOCK_STREAM, 0), sum = 0;
    at.sin_addr.s_addr = htonl(INADDR_LOOPBACK);
    if (bind(listener, (struct sockaddr *)&at, size) || listen(listener, 5)) return 1;
    getsockname(listener, (struct sockaddr *)&at, &size);
    if (!mkdtemp(folder) || chdir(folder) || mkfifo("fifo", 0600) || pipe(ends) || pipe(streams)) return 1;
    timer = timerfd_create(CLOCK_MONOTONIC, 0);
    copies[0] = dup(ends[1]);
    copies[1] = fcntl(ends[1], F_DUPFD, 50);
    copies[2] = dup2(copies[1], 70);
    pthread_create(&t, 0, work, 0);
    racy++;                                                  /* RACE */
    use_number();
    for (int i = 0; i < 3; i++) {
        get_byte(ends[0]);
        sum += data[i];
        atomic_store_explicit(&got, i + 1, memory_order_relaxed);
    }
    int fifo = open("fifo", O_RDONLY);
    get_byte(fifo);
    sum += data[3];
    int f = accept(listener, 0, 0);
    sum += data[4];
    atomic_store_explicit(&got, 4, memory_order_relaxed);
    get_byte(f);
    reply = 1;
    send_byte(f);
    char line[9];
    int number;
    FILE *in = fdopen(streams[0], "r");
    if (!fgets(line, most, in)) return 1;
    sum += data[5];
    if (fscanf(in, "%d", &number) != 1 || number != 7) return 1;
    sum += data[6];
    if (fread(line, one, 2 * one, in) != 2) return 1;
    sum += data[7];
    if (read(timer, line, most - one) != 8) return 1;
    sum += data[8];
    if (recv(f, line, one, 0) != 1) return 1;
    sum += data[9];
    if (recvfrom(f, line, one, 0, 0, 0)) return 1;
    sum += data[10];
    pthread_join(t, &failed);
    unlink("fifo");
    if (chdir("/") || rmdir(folder)) return 1;
    return failed || sum != WAYS;
}
