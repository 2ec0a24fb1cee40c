/* The modules of code in the program: which have hooks, and the functions that wrappers here stand for. */
#include "runtime.h"
#include <link.h>

enum { MAX_MODULES = 256 };
module modules[MAX_MODULES];
int module_count;

/* Libraries whose order is recorded at calls, or told by archer: what they use within isn't the program's. */
static const char *const own_orders[] = {"/libomp.", "/libiomp5.", "/libQt5Core.", "/libQt6Core.",
                                         "/libglib-2."};
enum { OWN_ORDERS = sizeof own_orders / sizeof *own_orders };
static module with_own_order[OWN_ORDERS];

int tells_its_own_order(uint64_t caller) {
    for (int i = 0; i < OWN_ORDERS; i++)
        if (caller >= with_own_order[i].low && caller < with_own_order[i].high) return 1;
    return 0;
}

static void note_module(struct dl_phdr_info *info, module m) {
    char path[PATH_MAX] = "", line[PATH_MAX + 64];
    if (!*info->dlpi_name && readlink("/proc/self/exe", path, sizeof path - 1) < 0) return;
    if (*info->dlpi_name) snprintf(path, sizeof path, "%s", info->dlpi_name);
    for (char *p = path; *p; p++)
        if (*p == '\n') *p = LINE_END_IN_PATH;
    snprintf(line, sizeof line, "%lx %lx %lx %s\n", m.low, m.high, (long)info->dlpi_addr, path);
    note_text(line);
}

/* The names that a module gives others or takes of them; each is behind a byte 0. */
typedef struct { const char *at; uint64_t size; } names;
static names names_of(struct dl_phdr_info *info) {
    names its = {0};
    const ElfW(Phdr) *p = info->dlpi_phdr, *end = p + info->dlpi_phnum;
    while (p < end && p->p_type != PT_DYNAMIC) p++;
    ElfW(Dyn) *d = p < end ? (void *)(info->dlpi_addr + p->p_vaddr) : 0;
    for (; d && d->d_tag != DT_NULL; d++) {
        if (d->d_tag == DT_STRTAB) its.at = (char *)d->d_un.d_ptr;
        if (d->d_tag == DT_STRSZ) its.size = d->d_un.d_val;
    }
    if (its.at && (uint64_t)its.at < info->dlpi_addr) its.at += info->dlpi_addr;
    return its;
}

static int have(names its, const char *name) {
    return its.at && memmem(its.at, its.size, name, 1 + strlen(name + 1));
}

/* Compiled with -fsanitize=thread is what imports hooks. (Calls of __tsan_init say less: some are jumps.)
   In C is what takes nothing of C++, unwinds no stack, and uses no liburcu, whose headers nest functions. */
enum language { WITHOUT_HOOKS, IN_OTHERS, IN_C };
static enum language language_of(names its) {
    static const char *const others[] = {"\0_Z", "\0__gxx_", "\0_Unwind_", "\0urcu_"};
    if (!have(its, "\0__tsan_init")) return WITHOUT_HOOKS;
    for (unsigned k = 0; k < sizeof others / sizeof *others; k++)
        if (have(its, others[k])) return IN_OTHERS;
    return IN_C;
}

static module bounds_of(const struct dl_phdr_info *info) {
    module m = {~0ull, 0, 0};
    for (int i = 0; i < info->dlpi_phnum; i++) {
        const ElfW(Phdr) *part = &info->dlpi_phdr[i];
        uint64_t from = info->dlpi_addr + part->p_vaddr;
        if (part->p_type != PT_LOAD) continue;
        if (from < m.low) m.low = from;
        if (from + part->p_memsz > m.high) m.high = from + part->p_memsz;
    }
    return m;
}

static unsigned long long seen_modules;

/* If there are more than were seen; how many gets their number. */
static int see_module(struct dl_phdr_info *info, size_t size, void *how_many) {
    if (info->dlpi_adds == seen_modules) return 1;
    *(unsigned long long *)how_many = info->dlpi_adds;
    module m = bounds_of(info);
    uint64_t own = (uint64_t)see_module;
    names its = names_of(info);
    enum language language = own < m.low || own >= m.high ? language_of(its) : WITHOUT_HOOKS;
    m.is_in_c = language == IN_C;
    note_module(info, m);
    const char *slash = strrchr(info->dlpi_name, '/');
    for (int i = 0; slash && i < OWN_ORDERS; i++)
        if (!strncmp(slash, own_orders[i], strlen(own_orders[i]))) with_own_order[i] = m;
    if (language && !instrumented(m.low) && module_count < MAX_MODULES) modules[module_count++] = m;
    if (language && have(its, "\0malloc_usable_size")) uses_whole_blocks = 1;
    return 0;
}

/* By no function of the C library, which might be the one that is looked for. */
static int begins_with(const char *name, const char *begin) {
    while (*begin && *name == *begin) name++, begin++;
    return !*begin;
}

/* What that allocates is no hook of the program's: whether it is looked up depends on who comes first. */
void *next_symbol(const char *name) {
    thread *t = self && !self->inside ? self : 0;
    void *p = 0;
    if (t) begin_inside(t);
    /* not the older interface */
    if (begins_with(name, "pthread_cond_")) p = dlvsym(RTLD_NEXT, name, "GLIBC_2.3.2");
    if (!p) p = dlsym(RTLD_NEXT, name);
    if (t) end_inside(t);
    return p;
}

static uint64_t module_with(void *p) {
    Dl_info info;
    return p && dladdr(p, &info) ? (uint64_t)info.dli_fbase : 0;
}

int program_has(const char *name) {
    return module_with(dlsym(RTLD_DEFAULT, name)) != module_with((void *)program_has);
}

/* ---- functions of libraries that the program may have by dlopen, so they aren't behind this one ---- */
typedef struct { struct { module bounds; const char *name; } at[MAX_MODULES]; int count; } loaded;

static int add_loaded(struct dl_phdr_info *info, size_t size, void *loaded_) {
    loaded *all = loaded_;
    module m = bounds_of(info);
    if (m.high && all->count < MAX_MODULES)
        all->at[all->count++] = (__typeof__(*all->at)){m, info->dlpi_name};
    return 0;
}

static void *found_in(const char *module, const char *name) {
    void *handle = REAL(dlopen)(module, RTLD_LAZY | RTLD_NOLOAD), *p = handle ? dlsym(handle, name) : 0;
    if (handle) REAL(dlclose)(handle);
    return module_with(p) == module_with((void *)found_in) ? 0 : p;
}

void *library_symbol(const char *name) {
    void *p = next_symbol(name);
    thread *t = self && !self->inside ? self : 0;
    loaded all = {.count = 0};
    if (t) begin_inside(t);
    if (!p) dl_iterate_phdr(add_loaded, &all);
    for (int i = 0; i < all.count && !p; i++) p = *all.at[i].name ? found_in(all.at[i].name, name) : 0;
    if (t) end_inside(t);
    return p;
}

void *find_forwarded(forwarded *which) {
    which->function = library_symbol(which->name);
    if (which->function) return which->function;
    tell("no library has %s", which->name);
    _exit(127);                        /* as the loader does */
}

__attribute__((constructor(101))) static void find_all_forwarded(void) {
    for (forwarded *f = __start_forwarded; f < __stop_forwarded; f++) function_if_any(f);
}

int is_behind_the_c_library(void) {
    static const char *const names[] = {"pthread_create", "pthread_join", "pthread_mutex_lock",
                                        "thrd_create"};
    uint64_t c_library = module_with(dlsym(RTLD_DEFAULT, "gnu_get_libc_version"));
    for (unsigned i = 0; i < sizeof names / sizeof *names; i++)
        if (c_library && module_with(dlsym(RTLD_DEFAULT, names[i])) == c_library) return 1;
    return 0;
}

/* called by each instrumented file's constructor, so also after a dlopen */
PUBLIC void __tsan_init(void) {
    unsigned long long how_many = seen_modules;
    dl_iterate_phdr(see_module, &how_many);
    seen_modules = how_many;
}

/* ---- the loader runs constructors and destructors under a lock of its own, which nobody sees; so under one
   of ours, too. A name without a folder it looks up by who calls: its own function is jumped to there ---- */
static pthread_mutex_t loading = PTHREAD_RECURSIVE_MUTEX_INITIALIZER_NP;
PUBLIC __attribute__((optimize("optimize-sibling-calls"))) void *dlopen(const char *path, int flags) {
    if (!others || !path || !strchr(path, '/') || strchr(path, '$')) return REAL(dlopen)(path, flags);
    pthread_mutex_lock(&loading);
    void *handle = REAL(dlopen)(path, flags);
    pthread_mutex_unlock(&loading);
    return handle;
}

/* ---- modules that go: none comes to their addresses, by which the record names code and variables ---- */
enum { MOST_GONE = 200 };              /* then others may: a table of modules has an end */
static int begins_at(struct dl_phdr_info *info, size_t size, void *low) {
    return bounds_of(info).low == *(uint64_t *)low;
}

static void keep_addresses(module gone) {
    static _Atomic int kept;
    uint64_t page = getpagesize(), from = gone.low & -page, bytes = ((gone.high + page - 1) & -page) - from;
    if (atomic_fetch_add(&kept, 1) >= MOST_GONE) return;
    long at = syscall(SYS_mmap, from, bytes, PROT_NONE, NEW_MEMORY | MAP_FIXED_NOREPLACE, -1, 0L);
    if (at > 0 && (uint64_t)at != from) syscall(SYS_munmap, at, bytes);     /* an old kernel */
}

PUBLIC int dlclose(void *handle) {
    if (!recording) return REAL(dlclose)(handle);
    loaded before = {.count = 0};
    dl_iterate_phdr(add_loaded, &before);
    int locks = others != 0;
    if (locks) pthread_mutex_lock(&loading);
    int error = REAL(dlclose)(handle), saved = errno;
    if (locks) pthread_mutex_unlock(&loading);
    for (int i = 0; i < before.count; i++)
        if (!dl_iterate_phdr(begins_at, &before.at[i].bounds.low)) keep_addresses(before.at[i].bounds);
    errno = saved;
    return error;
}

/* once there is a record; gcc's own library has __tsan_init called before that */
void note_modules(void) {
    seen_modules = 0;
    __tsan_init();
}
