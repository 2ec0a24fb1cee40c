/* Arrays that grow, maps, and lines of source files. */
#include "tables.h"
#include <stdarg.h>
#include <sys/random.h>
#include <unistd.h>

static const u64 prime = (1ull << 61) - 1;

void die(const char *format, ...) {
    va_list arguments;
    va_start(arguments, format);
    fputs("shb-std: ", stderr);
    vfprintf(stderr, format, arguments);
    fputc('\n', stderr);
    exit(FAILED);
}

void cannot_read(const char *path) { die("cannot read %s: %s", path, strerror(errno)); }
void cannot_write(const char *path) { die("cannot write to %s: %s", path, strerror(errno)); }

void end_file(FILE *file, const char *path) {
    if (fflush(file) || ferror(file) || fclose(file)) cannot_write(path);
}

char *cleaned(char *text) {
    for (char *p = text; *p; p++)
        if (*p == '|' || (unsigned char)*p < ' ') *p = '!';
    return text;
}

/* A long array is in large pages where the system has them: fewer faults, and fewer pages to look up. The
   whole mapping is, with the allocator's words before the array; else it could not be moved when it grows. */
static void *in_large_pages(void *array, size_t bytes) {
    enum { LONG = 4 << 20, PAGE = 4096 };
    u64 from = (u64)array & -PAGE, end = ((u64)array + bytes + PAGE - 1) & -PAGE;
    if (bytes >= LONG) madvise((void *)from, end - from, MADV_HUGEPAGE);
    return array;
}

RARE void *zeroed(size_t count, size_t size) {
    void *p = calloc(count, size);
    if (!p) die("out of memory");
    return in_large_pages(p, count * size);
}

char *copied(const char *text) {
    char *copy = strdup(text);
    if (!copy) die("out of memory");
    return copy;
}

void *mapped(size_t count, size_t size) {
    void *p = mmap(0, count * size, PROT_READ | PROT_WRITE, MAP_PRIVATE | MAP_ANONYMOUS | MAP_NORESERVE, -1,
                   0);
    if (p == MAP_FAILED)
        die("there are too few addresses for its tables, which take 400 MB of them (ulimit -v)");
    return p;
}

static RARE void *doubled(void *array, u64 *capacity, size_t size) {
    *capacity = *capacity ? *capacity * 2 : 64;
    array = realloc(array, *capacity * size);
    if (!array) die("out of memory");
    return in_large_pages(array, *capacity * size);
}

void *grown(void *array, u64 count, u64 *capacity, size_t size) {
    return count < *capacity ? array : doubled(array, capacity, size);
}

/* ---- maps: open addressing, at most half full ---- */
u64 mix(u64 a, u64 b) {
    a = (a ^ b * 0x9E3779B97F4A7C15ull) * 0xD6E8FEB86659FD93ull;
    a ^= a >> 32;
    a *= 0xD6E8FEB86659FD93ull;
    return a ^ a >> 29;
}

int by_number(const void *one, const void *other) {
    const u64 *a = one, *b = other;
    return *a < *b ? -1 : *a > *b;
}

static map_entry *entry_of(const map *m, u64 a, u64 b) {
    u64 i = mix(a, b) & (m->capacity - 1);
    while (m->entries[i].value && (m->entries[i].a != a || m->entries[i].b != b))
        i = (i + 1) & (m->capacity - 1);
    return &m->entries[i];
}

u32 map_find(const map *m, u64 a, u64 b) { return m->capacity ? entry_of(m, a, b)->value : 0; }

static void double_map(map *m) {
    map old = *m;
    m->capacity = old.capacity ? old.capacity * 2 : 1024;
    m->entries = zeroed(m->capacity, sizeof *m->entries);
    for (u64 i = 0; i < old.capacity; i++)
        if (old.entries[i].value) *entry_of(m, old.entries[i].a, old.entries[i].b) = old.entries[i];
    free(old.entries);
}

u32 map_number(map *m, u64 a, u64 b) {
    if (m->count * 2 >= m->capacity) double_map(m);
    map_entry *found = entry_of(m, a, b);
    if (!found->value) *found = (map_entry){a, b, ++m->count};
    return found->value;
}

int map_adds(map *m, u64 a, u64 b) {
    u64 before = m->count;
    return map_number(m, a, b) > before;
}

/* array: where its address is, of any type. */
u32 intern(map *numbers, u64 a, u64 b, void *array, u64 *capacity, size_t size) {
    u64 before = numbers->count;
    u32 number = map_number(numbers, a, b);
    if (number <= before) return number;
    char *entries;
    memcpy(&entries, array, sizeof entries);
    entries = grown(entries, before, capacity, size);
    memset(entries + before * size, 0, size);
    memcpy(array, &entries, sizeof entries);
    return number;
}

/* A random number, the same in the whole call. */
static u64 random_point(void) {
    static u64 point;
    if (!point && getrandom(&point, sizeof point, 0) != sizeof point)
        die("cannot draw a random number: %s", strerror(errno));
    return point & prime;
}

/* A text as a polynomial modulo the prime, at the random point, so nobody can choose texts that are taken for
   one; and a plain sum. */
typedef struct { u64 random, plain; } sums;
static sums sums_of(const char *text, u64 length) {
    sums s = {length, length};
    u64 point = random_point();
    for (u64 i = 0; i < length; i++) {
        unsigned __int128 product = (unsigned __int128)(s.random + (unsigned char)text[i]) * point;
        u64 sum = (u64)(product & prime) + (u64)(product >> 61);
        s = (sums){(sum & prime) + (sum >> 61), (s.plain ^ (unsigned char)text[i]) * 0x9E3779B97F4A7C15};
    }
    return s;
}

u32 map_text(map *m, const char *text) {
    sums s = sums_of(text, strlen(text));
    return map_number(m, s.random, s.plain);
}

u32 map_find_bytes(const map *m, const char *text, u64 length) {
    sums s = sums_of(text, length);
    return map_find(m, s.random, s.plain);
}

/* ---- lines of source files ---- */
/* A source file: its text, and where each line begins, and the last one ends. */
typedef struct { char *text; VECTOR(u64) begins; } source;

/* A device or FIFO may have no end. */
static source read_source(const char *path) {
    enum { MOST_BYTES = 64 << 20 };
    struct stat status;
    int f = open(path, O_RDONLY | O_NONBLOCK | O_CLOEXEC);
    int is_text = f >= 0 && !fstat(f, &status) && S_ISREG(status.st_mode) && status.st_size <= MOST_BYTES;
    source s = {.text = zeroed(is_text ? status.st_size + 1 : 1, 1)};
    ssize_t length = is_text ? read(f, s.text, status.st_size) : 0;
    if (f >= 0) close(f);
    *PUSH(s.begins) = 0;
    for (ssize_t k = 0; k < length; k++)
        if (s.text[k] == '\n' || k + 1 == length) *PUSH(s.begins) = k + 1;
    return s;
}

const char *line_of(const char *path, u64 number, u64 *length) {
    static map numbers;
    static VECTOR(source) sources;
    u32 met = map_text(&numbers, path);
    if (met > sources.count) *PUSH(sources) = read_source(path);
    const source *s = &sources.at[met - 1];
    if (!number || number >= s->begins.count) return 0;
    const char *line = s->text + s->begins.at[number - 1], *end = s->text + s->begins.at[number];
    *length = end - line - (end[-1] == '\n');
    return line;
}
