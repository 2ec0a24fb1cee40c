/* Preloaded into a recorded program: refuses disk space from request number REFUSE_SPACE on, counted from 1; or it has FREE_SPACE bytes
   before the first; or each request sleeps for SLOW_SPACE microseconds. */
#define _GNU_SOURCE
#include <errno.h>
#include <stdlib.h>
#include <sys/syscall.h>
#include <sys/vfs.h>
#include <time.h>

static long kernel(long number, long a, long b, long c, long d, long e, long f) {
    register long r10 __asm__("r10") = d, r8 __asm__("r8") = e, r9 __asm__("r9") = f;
    long result;
    __asm__ volatile("syscall" : "=a"(result)
                     : "a"(number), "D"(a), "S"(b), "d"(c), "r"(r10), "r"(r8), "r"(r9) : "rcx", "r11", "memory");
    return result;
}

static long setting(const char *name) { return getenv(name) ? atol(getenv(name)) : 0; }

long syscall(long number, long a, long b, long c, long d, long e, long f) {
    static long requests, taken;
    long result = -ENOSPC, refused = setting("REFUSE_SPACE");
    struct timespec slow = {0, setting("SLOW_SPACE") * 1000};
    if (number == SYS_fallocate && slow.tv_nsec) kernel(SYS_nanosleep, (long)&slow, 0, 0, 0, 0, 0);
    if (number != SYS_fallocate || !refused || ++requests < refused) result = kernel(number, a, b, c, d, e, f);
    if (number == SYS_fallocate) taken += d;
    if (number == SYS_fstatfs && setting("FREE_SPACE")) {
        struct statfs *disk = (struct statfs *)b;
        disk->f_bavail = (setting("FREE_SPACE") - taken) / disk->f_frsize;
    }
    if (result >= 0 || result < -4095) return result;
    errno = -result;
    return -1;
}
