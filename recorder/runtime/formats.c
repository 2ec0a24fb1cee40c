/* Formatted output and input: the format says which arguments are addresses of what is read or written. Of
   numbered arguments ("%1$s"), and of what follows a conversion that isn't known, nothing is recorded. */
#include "library.h"
#include <wchar.h>

enum direction { OUTPUT, INPUT };
typedef struct {
    const char *begin, *end;
    char kind;                         /* its letter; 0 where there is no more */
    char star;                         /* the width is an argument; of input: nothing is stored */
    char star_behind_point;            /* the precision is one */
    char allocates;                    /* of input: the argument is the address of a pointer */
    int width, precision;              /* -1: none */
    int size;                          /* of an integer of its length; with L it is 16 */
} conversion;

static int number_at(const char **p) {
    int n = -1;
    for (; **p >= '0' && **p <= '9'; ++*p) n = (n < 0 ? 0 : n % 100000000) * 10 + **p - '0';
    return n;
}

static int size_at(const char **p) {
    int n = sizeof(int);
    for (; **p && strchr("hlqjztZL", **p); ++*p) n = **p == 'h' ? n / 2 : **p == 'L' ? 16 : 8;
    return n;
}

static const char *end_of_set(const char *p) {               /* of "[^]a-z]", from the bracket on */
    p += p[1] == '^' ? 2 : 1;
    const char *end = *p ? strchr(p + 1, ']') : 0;
    return end ? end + 1 : "";
}

static conversion next_conversion(const char *p, enum direction direction) {
    conversion c = {.width = -1, .precision = -1};
    while ((p = strchr(p, '%')) && p[1] == '%') p += 2;
    if (!p) return c;
    c.begin = p++;
    p += strspn(p, direction == INPUT ? "'I" : "-+ #0'I");
    if (*p == '*') c.star = *p++;
    c.width = number_at(&p);
    if (direction == INPUT && *p == 'm') c.allocates = *p++;
    if (direction == OUTPUT && *p == '.') {
        c.star_behind_point = *++p == '*';
        p += c.star_behind_point;
        c.precision = number_at(&p);
        if (c.precision < 0) c.precision = 0;
    }
    c.size = size_at(&p);
    c.kind = *p == '$' ? 0 : *p;
    c.end = *p == '[' ? end_of_set(p) : p + 1;
    return c;
}

static int is_one_of(char kind, const char *kinds) { return strchr(kinds, kind) != 0; }
static int is_wide(const conversion *c) { return c->size == 8 || c->kind == 'S' || c->kind == 'C'; }
static size_t wide_text(const wchar_t *s, size_t most) {
    return least(wcsnlen(s, most) + 1, most) * sizeof *s;
}

/* A function with its arguments one by one, and the one that takes a list of them, `more`; r is what it
   returns. */
#define ALL(...) __VA_ARGS__
#define IN_BOTH_FORMS(name, vname, parameters, ...) \
    WRAPS(int, vname, (ALL parameters, va_list more)) { \
        uint64_t seen = begin_call(CALLER); \
        __VA_ARGS__ \
        return r; \
    } \
    WRAPS(int, name, (ALL parameters, ...)) { \
        uint64_t seen = begin_call(CALLER); \
        va_list more; \
        va_start(more, format); \
        __VA_ARGS__ \
        va_end(more); \
        return r; \
    }

/* ---- output ---- */
static void note_text_of(uint64_t seen, const conversion *c, const void *s, int precision) {
    size_t most = precision < 0 ? SIZE_MAX : (size_t)precision;
    if (s) READS(s, is_wide(c) ? wide_text(s, most) : text_within(s, most));
}

/* Before the call: what it reads, and writes on the way. */
static void note_output(uint64_t seen, const char *format, va_list given) {
    va_list more;
    va_copy(more, given);
    READS(format, text(format));
    for (conversion c = next_conversion(format, OUTPUT); c.kind; c = next_conversion(c.end, OUTPUT)) {
        if (c.star) (void)va_arg(more, int);
        int precision = c.star_behind_point ? va_arg(more, int) : c.precision;
        if (is_one_of(c.kind, "diouxXcCp")) (void)va_arg(more, long); /* one of fewer bytes takes as many */
        else if (is_one_of(c.kind, "eEfFgGaA") && c.size == 16) (void)va_arg(more, long double);
        else if (is_one_of(c.kind, "eEfFgGaA")) (void)va_arg(more, double);
        else if (is_one_of(c.kind, "sS")) note_text_of(seen, &c, va_arg(more, void *), precision);
        else if (c.kind == 'n') WRITES(va_arg(more, void *), least(c.size, 8));
        else if (c.kind != 'm') break;
    }
    va_end(more);
}

#define OUTPUTS(vname, arguments, sends, ...) \
        if (seen) note_output(seen, format, more); \
        if (seen) { sends; } \
        int r = REAL_AS(vname)(ALL arguments, more); \
        if (seen && r >= 0) { __VA_ARGS__; }
/* What -D_FORTIFY_SOURCE makes of each has further arguments before the format. */
#define PRINTS(name, to, its, checks, passed, sends, ...) \
    IN_BOTH_FORMS(name, v##name, (ALL to const char *format), \
                  OUTPUTS(v##name, (ALL its format), sends, __VA_ARGS__)) \
    IN_BOTH_FORMS(__##name##_chk, __v##name##_chk, (ALL to ALL checks const char *format), \
                  OUTPUTS(__v##name##_chk, (ALL its ALL passed format), sends, __VA_ARGS__))
#define WRITES_TEXT(s) WRITES(s, (size_t)r + 1)
PRINTS(printf, (), (), (int k,), (k,), , )
PRINTS(fprintf, (FILE *f,), (f,), (int k,), (k,), note_stream(OP_POST, f, seen), )
PRINTS(dprintf, (int f,), (f,), (int k,), (k,), note_transfer(OP_POST, f, seen), )
PRINTS(sprintf, (char *s,), (s,), (int k, size_t room,), (k, room,), , WRITES_TEXT(s))
PRINTS(snprintf, (char *s, size_t n,), (s, n,), (int k, size_t room,), (k, room,), ,
       WRITES(s, least((size_t)r + 1, n)))
PRINTS(asprintf, (char **s,), (s,), (int k,), (k,), , WRITES(s, sizeof *s), WRITES_TEXT(*s))

/* ---- input ---- */
static size_t stored_bytes(const conversion *c, const void *to) {
    size_t character = is_wide(c) ? sizeof(wchar_t) : 1;
    if (is_one_of(c->kind, "diouxXn")) return least(c->size, 8);
    if (is_one_of(c->kind, "eEfFgGaA")) return c->size;
    if (c->kind == 'p') return sizeof(void *);
    if (is_one_of(c->kind, "cC")) return character * (c->width < 0 ? 1 : c->width);
    if (is_one_of(c->kind, "sS[")) return is_wide(c) ? wide_text(to, SIZE_MAX) : text(to);
    return 0;
}

/* After the call, which stored so many: a count of bytes too ("%n"), if it was reached for certain. */
static void note_input(uint64_t seen, const char *format, va_list more, int stored) {
    READS(format, text(format));
    const char *reached = format;
    for (conversion c = next_conversion(format, INPUT); c.kind; c = next_conversion(c.end, INPUT)) {
        if (c.star) continue;
        if (c.kind == 'n' ? stored <= 0 && c.begin != reached : stored-- <= 0) break;
        void *to = va_arg(more, void *);
        if (c.allocates) WRITES(to, sizeof(void *));
        if (c.allocates) to = *(void **)to;
        WRITES(to, stored_bytes(&c, to));
        reached = c.end;
    }
}

#define INPUTS(vname, arguments, gets, ...) \
        va_list given; \
        va_copy(given, more); \
        if (seen) { __VA_ARGS__; } \
        int r = REAL_AS(vname)(ALL arguments, more); \
        if (seen) { gets; } \
        if (seen && r >= 0) note_input(seen, format, given, r); \
        va_end(given);
#define SCANS(name, vname, parameters, arguments, gets, ...) \
    IN_BOTH_FORMS(name, vname, parameters, INPUTS(vname, arguments, gets, __VA_ARGS__))
#define SCANS_BY_NAMES(name, vname, parameters, arguments, gets, ...) \
    SCANS(name, vname, parameters, arguments, gets, __VA_ARGS__) \
    SCANS(__isoc99_##name, __isoc99_##vname, parameters, arguments, gets, __VA_ARGS__) \
    SCANS(__isoc23_##name, __isoc23_##vname, parameters, arguments, gets, __VA_ARGS__)
SCANS_BY_NAMES(scanf, vscanf, (const char *format), (format), , )
SCANS_BY_NAMES(fscanf, vfscanf, (FILE *f, const char *format), (f, format), note_stream(OP_WAIT, f, seen), )
SCANS_BY_NAMES(sscanf, vsscanf, (const char *s, const char *format), (s, format), , READS(s, text(s)))
