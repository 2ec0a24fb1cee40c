/* What functions of the C library read and write.  Those that move memory are in memory.c, formatted output
   and input in formats.c, what goes through descriptors in descriptors.c.  A null pointer that a function
   accepts stands for nothing. */
#include "library.h"
#include <arpa/inet.h>
#include <ctype.h>
#include <grp.h>
#include <inttypes.h>
#include <netdb.h>
#include <pwd.h>
#include <strings.h>
#include <sys/random.h>
#include <sys/time.h>
#include <sys/times.h>
#include <sys/utsname.h>
#include <wchar.h>

uint64_t begin_call(uint64_t caller) {
    if (!others || !instrumented(caller)) return 0;
    int saved = errno;
    thread *t = enter(MAY_YIELD);
    if (t) {
        end_copy(t);
        leave(t);
    }
    errno = saved;
    return t ? caller : 0;
}

void note_range(uint64_t seen, enum operation operation, pointer p, uint64_t bytes) {
    uint64_t from = (uint64_t)p;
    if (!p || !bytes || from >= FIRST_DESCRIPTOR || bytes > FIRST_DESCRIPTOR - from) return;
    note_bytes(YIELDS_BY_LIST, operation, p, bytes, seen);
}

/* ---- how far a function looks ---- */
static size_t up_to(const void *p, const void *end) { return (const char *)end - (const char *)p; }
static size_t to_match(const char *s, const char *match) { return match ? up_to(s, match) + 1 : text(s); }
static size_t wide(size_t characters) { return characters * sizeof(wchar_t); }
static size_t array(size_t count, size_t size) {             /* 0 where there is none of that size */
    size_t bytes;
    return __builtin_mul_overflow(count, size, &bytes) ? 0 : bytes;
}

/* To the first difference, or the end. */
static size_t compared(const char *s, const char *o, size_t n, int without_case) {
    size_t i = 0;
    while (i < n && s[i]
           && (s[i] == o[i]
               || (without_case && tolower((unsigned char)s[i]) == tolower((unsigned char)o[i])))) i++;
    return least(i, n - 1) + 1;
}

static void compare(uint64_t seen, const char *s, const char *o, size_t n, int without_case) {
    size_t bytes = n ? compared(s, o, n, without_case) : 0;
    READS(s, bytes);
    READS(o, bytes);
}

static void gets_text(uint64_t seen, const char *s) { if (s) WRITES(s, text(s)); }

static void copies(uint64_t seen, const char *to, const char *from) {
    READS(from, text(to));
    WRITES(to, text(to));
}

static void copies_within(uint64_t seen, const char *to, const char *from, size_t n) {
    READS(from, text_within(from, n));
    WRITES(to, n);
}

static void appends(uint64_t seen, const char *to, const char *from, size_t n) {
    size_t added = strnlen(from, n), before = strlen(to) - added;
    READS(to, before + 1);
    READS(from, least(added + 1, n));
    WRITES(to + before, added + 1);
}

/* What -D_FORTIFY_SOURCE makes of a function has one argument more: how much room there is. */
#define ALL(...) __VA_ARGS__
#define COPIES(name, parameters, arguments, accesses) \
    AFTER(char *, name, parameters, arguments, accesses) \
    AFTER(char *, __##name##_chk, (ALL parameters, size_t room), (ALL arguments, room), accesses)

/* ---- strings ---- */
AFTER(size_t, strlen, (const char *s), (s), READS(s, r + 1))
AFTER(size_t, strnlen, (const char *s, size_t n), (s, n), READS(s, least(r + 1, n)))
#define COMPARES(name, without_case) \
    AFTER(int, str##name, (const char *s, const char *o), (s, o), \
          compare(seen, s, o, SIZE_MAX, without_case)) \
    AFTER(int, strn##name, (const char *s, const char *o, size_t n), (s, o, n), \
          compare(seen, s, o, n, without_case))
COMPARES(cmp, 0)
COMPARES(casecmp, 1)
AFTER(char *, strchr, (const char *s, int c), (s, c), READS(s, to_match(s, r)))
AFTER(char *, strchrnul, (const char *s, int c), (s, c), READS(s, r - s + 1))
AFTER(char *, strrchr, (const char *s, int c), (s, c), READS(s, text(s)))
/* so many bytes of the first text, and all of the second */
#define LOOKS_FOR(type, name, bytes) \
    AFTER(type, name, (const char *s, const char *o), (s, o), READS(s, bytes), READS(o, text(o)))
LOOKS_FOR(char *, strstr, r ? up_to(s, r) + strlen(o) : text(s))
LOOKS_FOR(char *, strcasestr, r ? up_to(s, r) + strlen(o) : text(s))
LOOKS_FOR(size_t, strspn, r + 1)
LOOKS_FOR(size_t, strcspn, r + 1)
LOOKS_FOR(char *, strpbrk, to_match(s, r))
#define COPIES_TEXT(name, does) COPIES(name, (char *to, const char *from), (to, from), does)
#define COPIES_WITHIN(name, does) COPIES(name, (char *to, const char *from, size_t n), (to, from, n), does)
COPIES_TEXT(strcpy, copies(seen, to, from))
COPIES_TEXT(stpcpy, copies(seen, to, from))
COPIES_TEXT(strcat, appends(seen, to, from, SIZE_MAX))
COPIES_WITHIN(strncpy, copies_within(seen, to, from, n))
COPIES_WITHIN(stpncpy, copies_within(seen, to, from, n))
COPIES_WITHIN(strncat, appends(seen, to, from, n))
#define DUPLICATES(form) \
    AFTER(char *, form##dup, (const char *s), (s), READS(s, text(s)), gets_text(seen, r)) \
    AFTER(char *, form##ndup, (const char *s, size_t n), (s, n), \
          READS(s, text_within(s, n)), gets_text(seen, r))
DUPLICATES(str)
DUPLICATES(__str)
AFTER(char *, strtok, (char *s, const char *set), (s, set), READS(set, text(set)); if (r) READS(r, text(r)))
/* The byte after the piece becomes its end, unless it was the text's. */
AFTER(char *, strtok_r, (char *s, const char *set, char **rest), (s, set, rest),
      READS(set, text(set)), WRITES(rest, sizeof *rest);
      if (r) READS(r, text(r));
      if (r && *rest == r + text(r)) WRITES(*rest - 1, 1))

/* Of a base that there isn't, nothing is said of the end. */
#define NUMBER(type, name) \
    WRAPS(type, name, (const char *s, char **end, int base)) { \
        uint64_t seen = begin_call(CALLER); \
        char *stop; \
        type r = REAL_AS(name)(s, end ? end : &stop, base); \
        if (!seen || base < 0 || base == 1 || base > 36) return r; \
        READS(s, up_to(s, end ? *end : stop) + 1); \
        WRITES(end, sizeof *end); \
        return r; \
    }
#define NUMBERS(type, name) NUMBER(type, name) NUMBER(type, __isoc23_##name)
NUMBERS(long, strtol)
NUMBERS(long long, strtoll)
NUMBERS(intmax_t, strtoimax)
NUMBERS(unsigned long, strtoul)
NUMBERS(unsigned long long, strtoull)
NUMBERS(uintmax_t, strtoumax)

AFTER(size_t, wcslen, (const wchar_t *s), (s), READS(s, wide(r + 1)))
AFTER(size_t, wcsnlen, (const wchar_t *s, size_t n), (s, n), READS(s, wide(least(r + 1, n))))
AFTER(wchar_t *, wcsdup, (const wchar_t *s), (s),
      READS(s, wide(wcslen(s) + 1)); if (r) WRITES(r, wide(wcslen(r) + 1)))
AFTER(wchar_t *, wcscat, (wchar_t *to, const wchar_t *from), (to, from),
      size_t added = wcslen(from), before = wcslen(to) - added;
      READS(to, wide(before + 1)), READS(from, wide(added + 1)), WRITES(to + before, wide(added + 1)))
AFTER(wchar_t *, wcsncat, (wchar_t *to, const wchar_t *from, size_t n), (to, from, n),
      size_t added = wcsnlen(from, n), before = wcslen(to) - added;
      READS(to, wide(before + 1)), READS(from, wide(least(added + 1, n))),
      WRITES(to + before, wide(added + 1)))

/* ---- memory ---- */
#define COMPARES_BYTES(name) \
    AFTER(int, name, (const void *p, const void *q, size_t n), (p, q, n), READS(p, n), READS(q, n))
COMPARES_BYTES(memcmp) COMPARES_BYTES(bcmp)
AFTER(void *, memchr, (const void *p, int c, size_t n), (p, c, n), READS(p, r ? up_to(p, r) + 1 : n))
AFTER(void *, rawmemchr, (const void *p, int c), (p, c), READS(p, up_to(p, r) + 1))
AFTER(void *, memrchr, (const void *p, int c, size_t n), (p, c, n), READS(r ? r : p, r ? n - up_to(p, r) : n))
AFTER(void *, memmem, (const void *p, size_t n, const void *q, size_t m), (p, n, q, m),
      READS(p, r ? up_to(p, r) + m : n), READS(q, m))
BEFORE(void *, mempcpy, (void *to, const void *from, size_t n), (to, from, n), READS(from, n), WRITES(to, n))
BEFORE(void, bzero, (void *p, size_t n), (p, n), WRITES(p, n))

#define COPIES_BYTES(name) \
    BEFORE(void *, name, (void *to, const void *from, size_t n, size_t room), (to, from, n, room), \
           READS(from, n), WRITES(to, n))
COPIES_BYTES(__memcpy_chk) COPIES_BYTES(__memmove_chk) COPIES_BYTES(__mempcpy_chk)
BEFORE(void *, __memset_chk, (void *to, int c, size_t n, size_t room), (to, c, n, room), WRITES(to, n))

/* Elements are moved between calls of a function that may give up the turn: so from the beginning on they are
   others. (bsearch reads elements by that function alone.) */
static void sorts(uint64_t seen, void *p, size_t count, size_t size) {
    if (count < 2) return;
    READS(p, array(count, size));
    WRITES(p, array(count, size));
}
BEFORE(void, qsort, (void *p, size_t count, size_t size, __compar_fn_t order), (p, count, size, order),
       sorts(seen, p, count, size))
BEFORE(void, qsort_r, (void *p, size_t count, size_t size, __compar_d_fn_t order, void *more),
       (p, count, size, order, more), sorts(seen, p, count, size))

/* ---- files: what goes out is read before, for the call may wait ---- */
BEFORE(int, puts, (const char *s), (s), READS(s, text(s)))
BEFORE(int, fputs, (const char *s, FILE *f), (s, f), READS(s, text(s)); note_stream(OP_POST, f, seen))
BEFORE(size_t, fwrite, (const void *p, size_t size, size_t n, FILE *f), (p, size, n, f),
       READS(p, array(size, n)); note_stream(OP_POST, f, seen))
#define PUTS_CHARACTER(name) BEFORE(int, name, (int c, FILE *f), (c, f), note_stream(OP_POST, f, seen))
PUTS_CHARACTER(fputc) PUTS_CHARACTER(putc) PUTS_CHARACTER(putc_unlocked) PUTS_CHARACTER(fputc_unlocked)
BEFORE(int, fflush, (FILE *f), (f), note_stream(OP_POST, f, seen))
BEFORE(int, fclose, (FILE *f), (f), note_stream(OP_POST, f, seen))
AFTER(size_t, fread, (void *p, size_t size, size_t n, FILE *f), (p, size, n, f),
      note_stream(OP_WAIT, f, seen); WRITES(p, array(size, r)))
AFTER(char *, fgets, (char *s, int n, FILE *f), (s, n, f),
      note_stream(OP_WAIT, f, seen); if (r) WRITES(s, text(s)))
/* As the compiler calls them with -D_FORTIFY_SOURCE. */
AFTER(size_t, __fread_chk, (void *p, size_t room, size_t size, size_t n, FILE *f), (p, room, size, n, f),
      note_stream(OP_WAIT, f, seen); WRITES(p, array(size, r)))
AFTER(char *, __fgets_chk, (char *s, size_t room, int n, FILE *f), (s, room, n, f),
      note_stream(OP_WAIT, f, seen); if (r) WRITES(s, text(s)))
#define GETS_CHARACTER(name) AFTER(int, name, (FILE *f), (f), note_stream(OP_WAIT, f, seen))
GETS_CHARACTER(fgetc) GETS_CHARACTER(getc) GETS_CHARACTER(getc_unlocked) GETS_CHARACTER(fgetc_unlocked)
GETS_CHARACTER(__uflow)                /* of that, where it is inlined */
static void got_line(uint64_t seen, FILE *f, char **line, size_t *room, ssize_t length) {
    note_stream(OP_WAIT, f, seen);
    if (length < 0) return;
    WRITES(line, sizeof *line);
    WRITES(room, sizeof *room);
    WRITES(*line, length + 1);
}
AFTER(ssize_t, getline, (char **s, size_t *n, FILE *f), (s, n, f), got_line(seen, f, s, n, r))
#define GETS_LINE(name) \
    AFTER(ssize_t, name, (char **s, size_t *n, int c, FILE *f), (s, n, c, f), got_line(seen, f, s, n, r))
GETS_LINE(getdelim) GETS_LINE(__getdelim)
AFTER(ssize_t, getrandom, (void *p, size_t n, unsigned flags), (p, n, flags), if (r > 0) WRITES(p, r))

/* ---- clocks: what they show decides how long threads wait, so a replay shows the same; also to libraries,
   as the C++ library asks for its callers. Memory that isn't there is a fault outside of a hook ---- */
enum { NANOSECONDS = 1000000000 };
static int shown(clockid_t c, struct timespec *to, uint64_t caller) {
    int saved = errno, error;
    thread *t = self ? enter(instrumented(caller) ? MAY_YIELD : YIELDS_BY_LIST) : 0;
    error = REAL(clock_gettime)(c, to) ? errno : 0;
    if (t && !error) {
        uint64_t now = same_value(t, to->tv_sec * (uint64_t)NANOSECONDS + to->tv_nsec);
        *to = (struct timespec){now / NANOSECONDS, now % NANOSECONDS};
    }
    if (t) end_copy(t), leave(t);
    errno = error ? error : saved;
    return error ? -1 : 0;
}
#define SHOWS(type, name, parameters, clock, its, result) \
    WRAPS(type, name, parameters) { \
        struct timespec now; \
        uint64_t caller = CALLER, seen = others && instrumented(caller) ? caller : 0; \
        int error = shown(clock, &now, caller); \
        if (!error && p) *p = its; \
        if (!error && p && seen) WRITES(p, sizeof *p); \
        return result; \
    }
SHOWS(int, clock_gettime, (clockid_t c, struct timespec *p), c, now, error)
SHOWS(time_t, time, (time_t *p), CLOCK_REALTIME_COARSE, now.tv_sec, now.tv_sec)
SHOWS(int, gettimeofday, (struct timeval *p, void *zone), CLOCK_REALTIME,
      ((struct timeval){now.tv_sec, now.tv_nsec / 1000}),
      (zone ? memset(zone, 0, sizeof(struct timezone)) : 0, error))
AFTER(int, clock_getres, (clockid_t c, struct timespec *p), (c, p), if (!r) WRITES(p, sizeof *p))
AFTER(clock_t, times, (struct tms *p), (p), if (r != -1) WRITES(p, sizeof *p))
#define SHOWN(type, name, time, bytes) \
    AFTER(type *, name, (const time *p), (p), READS(p, sizeof *p); if (r) WRITES(r, bytes)) \
    AFTER(type *, name##_r, (const time *p, type *to), (p, to), READS(p, sizeof *p); if (r) WRITES(r, bytes))
SHOWN(struct tm, localtime, time_t, sizeof *r)
SHOWN(struct tm, gmtime, time_t, sizeof *r)
SHOWN(char, ctime, time_t, text(r))
SHOWN(char, asctime, struct tm, text(r))
AFTER(time_t, mktime, (struct tm *p), (p), READS(p, sizeof *p), WRITES(p, sizeof *p))

/* ---- names: of files, users, machines ---- */
static size_t address_bytes(int family) {
    return family == AF_INET6 ? sizeof(struct in6_addr) : sizeof(struct in_addr);
}
AFTER(char *, getcwd, (char *s, size_t n), (s, n), gets_text(seen, r))
AFTER(char *, realpath, (const char *p, char *s), (p, s), if (r) READS(p, text(p)), gets_text(seen, r))
AFTER(ssize_t, readlink, (const char *path, char *s, size_t n), (path, s, n),
      if (r > 0) READS(path, text(path)), WRITES(s, r))
AFTER(ssize_t, readlinkat, (int f, const char *path, char *s, size_t n), (f, path, s, n),
      if (r > 0) READS(path, text(path)), WRITES(s, r))
AFTER(char *, ttyname, (int f), (f), gets_text(seen, r))
AFTER(int, ttyname_r, (int f, char *s, size_t n), (f, s, n), if (!r) gets_text(seen, s))
AFTER(char *, strerror_r, (int error, char *s, size_t n), (error, s, n), if (r == s && n) gets_text(seen, s))
AFTER(int, gethostname, (char *s, size_t n), (s, n), if (!r) WRITES(s, text_within(s, n)))
AFTER(int, uname, (struct utsname *p), (p), if (!r) WRITES(p, sizeof *p))
AFTER(int, inet_aton, (const char *s, struct in_addr *p), (s, p), if (r) READS(s, text(s)),
      WRITES(p, sizeof *p))
AFTER(int, inet_pton, (int family, const char *s, void *p), (family, s, p),
      if (r == 1) READS(s, text(s)), WRITES(p, address_bytes(family)))
AFTER(const char *, inet_ntop, (int family, const void *p, char *s, socklen_t n), (family, p, s, n),
      if (r) READS(p, address_bytes(family)), gets_text(seen, s))
AFTER(struct hostent *, gethostbyname, (const char *s), (s), READS(s, text(s)); if (r) WRITES(r, sizeof *r))
/* An entry in the library's own memory, and one in the caller's. */
#define ENTRY(type, name, parameter, reads) \
    AFTER(struct type *, name, (parameter), (by), reads; if (r) WRITES(r, sizeof *r)) \
    AFTER(int, name##_r, (parameter, struct type *p, char *room, size_t n, struct type **to), \
          (by, p, room, n, to), reads; WRITES(to, sizeof *to); if (!r && *to) WRITES(p, sizeof *p))
ENTRY(passwd, getpwnam, const char *by, READS(by, text(by)))
ENTRY(passwd, getpwuid, uid_t by, )
ENTRY(group, getgrnam, const char *by, READS(by, text(by)))
ENTRY(group, getgrgid, gid_t by, )
