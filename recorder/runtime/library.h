/* How the accesses of a function of the C library are recorded: as those of its caller, where that was
   compiled with -fsanitize=thread.  They are measured outside of a hook, so memory that isn't there is a
   fault of the program's own. */
#include "runtime.h"

uint64_t begin_call(uint64_t caller);  /* The caller, with the turn then; or 0 where nothing is recorded. */
/* Yields by the list alone, for a thread may have slept in the call before.  Nothing of a null pointer, or of
   a range that can't be there. */
void note_range(uint64_t seen, enum operation operation, pointer p, uint64_t bytes);
#define READS(p, bytes) note_range(seen, OP_READ, p, bytes)
#define WRITES(p, bytes) note_range(seen, OP_WRITE, p, bytes)

/* What is sent to a descriptor comes before what is got from its other end, if this may be in the process; of
   a stream also what stays in its buffer. */
void note_transfer(enum operation operation, int descriptor, uint64_t caller);
static inline void note_stream(enum operation operation, FILE *f, uint64_t caller) {
    int saved = errno, descriptor = f ? fileno(f) : -1;
    errno = saved;
    note_transfer(operation, descriptor, caller);
}

/* How far a text goes, with its end; of at most n bytes, where the end may not be met. */
static inline size_t text(const char *s) { return strlen(s) + 1; }
static inline size_t text_within(const char *s, size_t n) { return least(strnlen(s, n) + 1, n); }

/* A function whose accesses its result r tells. It doesn't wait, so they are recorded where they are made. */
#define AFTER(type, name, parameters, arguments, ...) \
    PUBLIC type name parameters { \
        uint64_t seen = begin_call(CALLER); \
        type r = REAL(name) arguments; \
        if (seen) { __VA_ARGS__; } \
        return r; \
    }
/* One whose accesses are known before it. */
#define BEFORE(type, name, parameters, arguments, ...) \
    PUBLIC type name parameters { \
        uint64_t seen = begin_call(CALLER); \
        if (seen) { __VA_ARGS__; } \
        return REAL(name) arguments; \
    }
