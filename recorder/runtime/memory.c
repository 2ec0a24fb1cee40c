/* Functions that give, take, copy or fill memory. */
#include "runtime.h"
#include <sys/shm.h>

void *__libc_calloc(size_t, size_t), *__libc_realloc(void *, size_t), *__libc_memalign(size_t, size_t);

/* ---- a new block is new variables; a free is a write. A thread may have slept in the call before; one that
   code without hooks calls may have a lock that nobody sees, so there the turn isn't given up ---- */
void *allocated(void *p, size_t n, uint64_t caller) {
    if (p) note_bytes(instrumented(caller) ? MAY_YIELD : YIELDS_BY_LIST, OP_ALLOC, p, n ? n : 1, caller);
    return p;
}

/* The blocks are the C library's, or of an allocator that has its names (tcmalloc, mimalloc). */
PUBLIC size_t malloc_usable_size(void *);
static size_t (*usable_size)(void *);
__attribute__((constructor(101))) static void know_usable_size(void) {
    Dl_info from;
    int is_known = dladdr((void *)__libc_malloc, &from);
    void *library = is_known ? dlopen(from.dli_fname, RTLD_LAZY | RTLD_NOLOAD) : 0;
    if (!library) library = dlopen(0, RTLD_LAZY);
    void *found = library ? dlsym(library, "malloc_usable_size") : 0;
    if (found != (void *)malloc_usable_size) usable_size = (size_t (*)(void *))found;
}

PUBLIC size_t malloc_usable_size(void *p) {
    if (!usable_size) know_usable_size();
    return usable_size ? usable_size(p) : 0;
}

/* A block of the heap. All of it is new, also behind its size, if the program may ask how large it is. */
int uses_whole_blocks;
static void *given(void *p, size_t n, uint64_t caller) {
    enum { GRAIN = 16 };               /* as the converter has it */
    allocated(p, n, caller);
    size_t known = ((n ? n : 1) + GRAIN - 1) & -GRAIN;
    size_t whole = uses_whole_blocks && usable_size && p ? usable_size(p) : 0;
    if (whole > known) allocated((char *)p + known, whole - known, caller);
    return p;
}

/* As many bytes of a block are written by its free. */
static size_t bytes_freed(void *p) {
    enum { MOST_FREED = 1024 };
    return least(usable_size ? usable_size(p) : 1, MOST_FREED);
}

/* What uninstrumented code frees, it may have ordered by means that nobody sees. */
static int is_free_seen(const void *p, uint64_t caller) {
    return p && others && recording && instrumented(caller);
}

static void will_free(void *p, uint64_t caller) {
    if (is_free_seen(p, caller)) note_bytes(MAY_YIELD, OP_FREE, p, bytes_freed(p), caller);
}

PUBLIC void *malloc(size_t n) { return given(__libc_malloc(n), n, CALLER); }
PUBLIC void *calloc(size_t k, size_t n) { return given(__libc_calloc(k, n), k * n, CALLER); }
PUBLIC void *memalign(size_t a, size_t n) { return given(__libc_memalign(a, n), n, CALLER); }
PUBLIC void *aligned_alloc(size_t a, size_t n) { return given(__libc_memalign(a, n), n, CALLER); }
PUBLIC void *valloc(size_t n) { return given(__libc_memalign(getpagesize(), n), n, CALLER); }

PUBLIC void free(void *p) {
    will_free(p, CALLER);
    __libc_free(p);
}

/* One that fails frees nothing. If the turn was lost in it, another thread may have the old memory by now. */
PUBLIC void *realloc(void *p, size_t n) {
    thread *t = is_free_seen(p, CALLER) ? enter(MAY_YIELD) : 0;
    size_t bytes = t ? bytes_freed(p) : 0;
    if (t) t->inside = 0;              /* it may find that the heap is broken, and abort */
    void *new = __libc_realloc(p, n);
    if (t) t->inside = 1;
    if (t && (new || !n) && keep_turn(t)) put(t, OP_FREE, p, bytes, CALLER);
    if (t) leave(t);
    return given(new, n, CALLER);
}

PUBLIC int posix_memalign(void **result, size_t a, size_t n) {
    if (a % sizeof(void *) || !a || a & (a - 1)) return EINVAL;
    void *p = given(__libc_memalign(a, n), n, CALLER);
    if (!p) return ENOMEM;
    *result = p;
    return 0;
}

PUBLIC void *mmap(void *at, size_t n, int protection, int flags, int f, off_t offset) {
    void *p = (void *)syscall(SYS_mmap, at, n, protection, flags, f, offset);
    return p == MAP_FAILED ? p : allocated(p, n, CALLER);
}
PUBLIC void *mmap64(void *, size_t, int, int, int, off_t) __attribute__((alias("mmap")));

PUBLIC void *shmat(int id, const void *at, int flags) {
    void *p = (void *)syscall(SYS_shmat, id, at, flags);
    struct shmid_ds segment;
    return p == (void *)-1 || shmctl(id, IPC_STAT, &segment) ? p : allocated(p, segment.shm_segsz, CALLER);
}

WRAPS(void *, mremap, (void *old, size_t old_size, size_t size, int flags, word fixed)) {
    char *p = (char *)syscall(SYS_mremap, old, old_size, size, flags, flags & MREMAP_FIXED ? fixed : 0);
    size_t kept = p == old ? old_size : 0;
    if (p != MAP_FAILED && size > kept) allocated(p + kept, size - kept, CALLER);
    return p;
}

/* ---- C++: a block of `new` is from where `delete` gives it back ---- */
/* If the program has forms of its own, all others are the C++ library's, which makes them of these. */
static int has_own_forms(void) {
    static const char *const forms[] = {"_Znwm", "_Znam", "_ZdlPv", "_ZdaPv", "_ZnwmSt11align_val_t",
                                        "_ZdlPvSt11align_val_t"};
    static _Atomic char known;         /* 1: none, 2: some */
    if (known) return known == 2;
    int some = 0;
    for (unsigned k = 0; k < sizeof forms / sizeof *forms; k++) some |= program_has(forms[k]);
    known = 1 + some;
    return some;
}

/* In a form that may not throw, `nothrow` is not null; one for greater alignment has that before it. The C++
   library's is called if there is no memory, to throw; it may be linked into the program, so that there is no
   way to throw. */
typedef void *(*new_function)(size_t, size_t, const void *);

static void *called_new(new_function real, size_t n, size_t align, const void *nothrow, uint64_t caller) {
    int is_others = real && has_own_forms();
    void *p = is_others ? 0 : align ? __libc_memalign(align, n ? n : 1) : __libc_malloc(n ? n : 1);
    if (!p && real) return real(n, align ? align : (size_t)nothrow, nothrow);
    if (!p && !nothrow) abort();
    return given(p, n, caller);
}

#define NEW(name, parameters, align, nothrow) \
    PUBLIC void *name parameters { \
        return called_new((new_function)(void *)REAL_IF_ANY(name), n, align, nothrow, CALLER); \
    }
/* of one object, and of an array */
#define NEWS(form, ...) NEW(_Znwm##form, __VA_ARGS__) NEW(_Znam##form, __VA_ARGS__)
NEWS(, (size_t n), 0, 0)
NEWS(RKSt9nothrow_t, (size_t n, const void *nothrow), 0, nothrow)
NEWS(St11align_val_t, (size_t n, size_t align), align, 0)
NEWS(St11align_val_tRKSt9nothrow_t, (size_t n, size_t align, const void *nothrow), align, nothrow)

/* What a form has besides the block is handed on. */
#define DELETES(name) \
    PUBLIC void name(void *p, size_t second, size_t third) { \
        if (has_own_forms() && REAL_IF_ANY(name)) return REAL(name)(p, second, third); \
        will_free(p, CALLER); \
        __libc_free(p); \
    }
DELETES(_ZdlPv) DELETES(_ZdaPv) DELETES(_ZdlPvm) DELETES(_ZdaPvm)
DELETES(_ZdlPvRKSt9nothrow_t) DELETES(_ZdaPvRKSt9nothrow_t)
DELETES(_ZdlPvSt11align_val_t) DELETES(_ZdaPvSt11align_val_t)
DELETES(_ZdlPvmSt11align_val_t) DELETES(_ZdaPvmSt11align_val_t)
DELETES(_ZdlPvSt11align_val_tRKSt9nothrow_t) DELETES(_ZdaPvSt11align_val_tRKSt9nothrow_t)

/* ---- ranges: never yields, for this may be the tail of a structure's copy ---- */
static void note_copy(void *to, const void *from, size_t n, uint64_t caller) {
    if (!others || !n || !instrumented(caller)) return;
    if (from) note_bytes(NEVER_YIELD, OP_READ, from, n, caller);
    note_bytes(NEVER_YIELD, OP_WRITE, to, n, caller);
    if (self) end_copy(self);
}

static void copy_up(void *to, const void *from, size_t n) {
    __asm__ volatile("rep movsb" : "+D"(to), "+S"(from), "+c"(n) : : "memory");
}

static void copy_down(void *to, const void *from, size_t n) {
    char *last = (char *)to + n - 1;
    const char *source = (const char *)from + n - 1;
    __asm__ volatile("std; rep movsb; cld" : "+D"(last), "+S"(source), "+c"(n) : : "memory");
}

PUBLIC void *memmove(void *to, const void *from, size_t n) {
    note_copy(to, from, n, CALLER);
    if ((uint64_t)to - (uint64_t)from >= n) copy_up(to, from, n);
    else copy_down(to, from, n);
    return to;
}

PUBLIC void *memcpy(void *, const void *, size_t) __attribute__((alias("memmove"), copy(memmove)));

PUBLIC void *memset(void *to, int c, size_t n) {
    note_copy(to, 0, n, CALLER);
    void *p = to;
    __asm__ volatile("rep stosb" : "+D"(p), "+c"(n) : "a"(c) : "memory");
    return to;
}

/* What newer clangs call instead. */
PUBLIC void *__tsan_memcpy(void *, const void *, size_t) __attribute__((alias("memcpy"), copy(memcpy)));
PUBLIC void *__tsan_memmove(void *, const void *, size_t) __attribute__((alias("memmove"), copy(memmove)));
PUBLIC void *__tsan_memset(void *, int, size_t) __attribute__((alias("memset"), copy(memset)));
