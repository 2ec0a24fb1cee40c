/* Names of source files: the shortest end of a file's path that no other file's path ends in; at most the
   path from the folder that all files of the program have in common. Or, if one was named, the path from
   there (--strip). */
#include "converter.h"
#include <ctype.h>

static const char *stripped;
/* as by normal_path, each once; when they are named, sorted by their ends */
static VECTOR(char *) sources;
static u64 sorted_count;
/* of the folder that the program's own have in common, with its last '/' */
static u64 common_length;

/* Rust's own library, which programs mostly have as it was compiled without hooks, but for what
   is generic. */
int in_rust_library(const char *path) {
    return starts_with(path, "/rustc/") || strstr(path, "/lib/rustlib/src/");
}

int in_system(const char *path) {
    return starts_with(path, "/usr/") || starts_with(path, "/lib") || strstr(path, "/include/c++/")
        || strstr(path, "/lib/gcc/")
        || in_rust_library(path);
}

/* The path as of a file that is there, without links: "/a/./b//../c" is "/a/c". */
static char *normal_path(const char *path) {
    char *normal = zeroed(strlen(path) + 2, 1), *end = normal;
    while (*path) {
        size_t length = strcspn(path, "/");
        if (length == 2 && starts_with(path, "..")) {
            while (end > normal && *--end != '/') {}
        } else if (length && !(length == 1 && *path == '.')) {
            *end++ = '/';
            memcpy(end, path, length);
            end += length;
        }
        path += length + (path[length] == '/');
    }
    *end = 0;
    return normal;
}

/* How many bytes at their ends two paths have in common. */
static u64 common_end(const char *one, const char *two) {
    u64 length = strlen(one), other = strlen(two), count = 0;
    while (count < length && count < other && one[length - count - 1] == two[other - count - 1]) count++;
    return count;
}

static int by_end(const void *a, const void *b) {
    const char *one = *(char *const *)a, *two = *(char *const *)b;
    u64 same = common_end(one, two), length = strlen(one), other = strlen(two);
    unsigned char x = same < length ? one[length - same - 1] : 0,
        y = same < other ? two[other - same - 1] : 0;
    return x - y;
}

static void find_common_folder(void) {
    const char *first = 0;
    for (u64 k = 0; k < sources.count; k++) {
        if (in_system(sources.at[k])) continue;
        if (!first) {
            first = sources.at[k];
            common_length = strrchr(first, '/') + 1 - first;
        }
        while (strncmp(first, sources.at[k], common_length))
            do common_length--;
            while (first[common_length - 1] != '/');
    }
}

void note_source(const char *path) {
    static map met;
    char *normal = normal_path(path);
    if (*normal && map_text(&met, normal) > sources.count) *PUSH(sources) = normal;
    else free(normal);
}

/* The shortest end of a path, in whole words between '/', that another path doesn't end in. */
static const char *differing_end(const char *path, const char *other) {
    u64 same = common_end(path, other);
    const char *at = path + strlen(path) - same;
    if (at > path && *at == '/') at--;
    while (at > path && *at != '/') at--;
    return at + 1;
}

/* If paths are sorted by their ends, the one before or after it has the longest end in common with it. */
static const char *unique_end(char *const *found) {
    const char *before = found > sources.at ? differing_end(*found, found[-1]) : 0;
    const char *after = found + 1 < sources.at + sources.count ? differing_end(*found, found[1]) : 0;
    const char *end = strrchr(*found, '/') + 1;
    if (before && before < end) end = before;
    return after && after < end ? after : end;
}

const char *source_name(const char *path) {
    char *normal = normal_path(path);
    size_t strip = stripped ? strlen(stripped) : 0;
    if (!*normal) return path;
    if (stripped && !strncmp(normal, stripped, strip) && normal[strip] == '/') return normal + strip + 1;
    if (sorted_count != sources.count) {
        SORT(sources, by_end);
        find_common_folder();
        sorted_count = sources.count;
    }
    char **found = 0;
    if (sources.count) found = bsearch(&normal, sources.at, sources.count, sizeof *sources.at, by_end);
    if (!found) return strrchr(normal, '/') + 1;
    const char *end = unique_end(found), *most = in_system(*found) ? *found + 1 : *found + common_length;
    return end < most ? most : end;
}

void write_sources(FILE *file) {
    for (u64 k = 0; k < sources.count; k++) {
        const char *path = sources.at[k];
        if (in_system(path) || strpbrk(path, "\t\n")) continue;
        fprintf(file, "source %s\t%s\n", source_name(path), path);
    }
}

/* So a line that was changed is known as another one by whoever sees traces of both, and nothing that stands
   in a file is told. Blanks at the ends don't count. */
void write_line_sum(FILE *file, const char *location, const char *path, u64 line) {
    u64 length, sum = 0;
    const char *at = line_of(path, line, &length);
    if (!at) return;
    const char *end = at + length;
    while (at < end && isspace((uint8_t)*at)) at++;
    while (end > at && isspace((uint8_t)end[-1])) end--;
    while (at < end) sum = mix(sum, (uint8_t)*at++ + 1);
    fprintf(file, "line %s\t%016lx\n", location, sum);
}

void strip_folder(const char *folder) {
    char *real = realpath(folder, 0);
    stripped = normal_path(real ? real : folder);
    free(real);
}
