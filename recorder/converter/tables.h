/* What shb-std and the reader of modules share, with the headers that most need. Each file includes it first,
   or what includes it first. */
#pragma once
#define _GNU_SOURCE
#include <errno.h>
#include <fcntl.h>
#include <stdint.h>
#include <stdio.h>
#include <stdlib.h>
#include <string.h>
#include <sys/mman.h>
#include <sys/stat.h>
#include "../record.h"

typedef uint64_t u64;
typedef uint32_t u32;
enum { NAME_BYTES = 1400 };            /* of a variable */

/* tables.c: arrays that grow, and maps from two words to a number from 1, in the order of asking. */
typedef struct { u64 a, b; u32 value; } map_entry;
typedef struct { map_entry *entries; u64 count, capacity; } map;
enum { NOT_WHOLE = 1, FAILED, BAD_WORDS };                   /* statuses; 1: the trace is a part of the run */
void die(const char *format, ...) __attribute__((noreturn, format(printf, 1, 2)));
void cannot_read(const char *path) __attribute__((noreturn));
void cannot_write(const char *path) __attribute__((noreturn));
void end_file(FILE *file, const char *path);                 /* what was written is there, or it dies */
char *cleaned(char *text);             /* what would end a field or a line is another sign now */
static inline int starts_with(const char *text, const char *begin) {
    return !strncmp(text, begin, strlen(begin));
}
void *zeroed(size_t count, size_t size);
char *copied(const char *text);
void *mapped(size_t count, size_t size);                     /* what isn't used of it takes addresses alone */
void *grown(void *array, u64 count, u64 *capacity, size_t size);
/* An array that grows. PUSH points to a new entry at its end, which has to be written. */
#define VECTOR(type) struct { type *at; u64 count, capacity; }
#define PUSH(vector) \
    ((vector).at = grown((vector).at, (vector).count, &(vector).capacity, sizeof *(vector).at), \
        &(vector).at[(vector).count++])
/* How many of the first `count` numbers k from 0 on are before something: `is_before`, of k, holds for
   these alone. */
#define COUNT_BEFORE(k, count, is_before) ({ \
    u64 its_low = 0, its_end = (count); \
    while (its_low < its_end) { \
        u64 k = its_low + (its_end - its_low) / 2; \
        if (is_before) its_low = k + 1; \
        else its_end = k; \
    } \
    its_low; })
/* For each entry of an array, which may be null if it has none; of one that grows. */
#define EACH_OF(item, array, count) \
    for (__typeof__(array) item = (array); item && item < (array) + (count); item++)
#define EACH(item, vector) EACH_OF(item, (vector).at, (vector).count)
#define SORT(vector, order) \
    ({ if ((vector).count) qsort((vector).at, (vector).count, sizeof *(vector).at, order); })
/* An array with an entry for each key of two words. INTERN returns its number, from 1, ENTRY its address; a
   new one is zeros. */
#define INTERNED(type) struct { map numbers; type *at; u64 capacity; }
#define INTERN(table, a, b) \
    intern(&(table).numbers, (a), (b), &(table).at, &(table).capacity, sizeof *(table).at)
#define ENTRY(table, a, b) ({ const u32 its_number = INTERN(table, a, b); &(table).at[its_number - 1]; })
/* The address of the entry of a key that is there; or null. */
#define FOUND(table, a, b) \
    ({ const u32 its_number = map_find(&(table).numbers, a, b); \
       its_number ? &(table).at[its_number - 1] : 0; })
u32 intern(map *numbers, u64 a, u64 b, void *array, u64 *capacity, size_t size);
u32 map_find(const map *m, u64 a, u64 b);                    /* 0: it isn't there */
u32 map_number(map *m, u64 a, u64 b);
int map_adds(map *m, u64 a, u64 b);    /* the same; returns whether it is new */
u32 map_text(map *m, const char *text);                      /* the same of a text, by two sums of it */
u32 map_find_bytes(const map *m, const char *text, u64 length);
/* Of a file, from 1, without an end; 0 where there is none. A file is read once. */
const char *line_of(const char *path, u64 number, u64 *length);
u64 mix(u64 a, u64 b);
int by_number(const void *one, const void *other);           /* for qsort, of entries that begin with a u64 */
