/* Cells: what is known of each 8 bytes of memory, so that accesses which bring no race needn't be recorded.

   A cell has the thread that alone used its bytes lately, the *owner*, and its latest uses of some kinds. An
   access that repeats a use of the owner is *held back*: its position is kept, and that of the one before is
   forgotten. When another thread comes, or another kind needs the room, the last of each use goes to the
   record with its position (OP_LATE), and the converter puts it there. For example, of x = 0; while (n--)
   x++; by a thread, and then x = 1 by another, the record gets four accesses: x = 0, the last read and the
   last write of x++, and x = 1.

   While nobody writes, other threads that read the cell don't end the phase: then its owner is READERS, and
   each use is one of a certain thread's. A write, also an atomic one, an access of several cells or a free
   ends that phase.

   An atomic access is held back likewise: it is of another kind with another order, and a load is a read. In
   a phase one thread alone reads and writes the value, or nobody writes it. So nobody takes what the ones
   between the first and the last gave, and by C11
     - the last one of a kind gives all that those before it gave, for what a thread gives never gets less;
     - a relaxed store ends what other threads gave, and the first of its kind in the phase is recorded at
       once;
     - what a thread takes is that of others before the phase, which the first of each kind took, or its own;
     - the last ones stand in the order in which they were made, so the last store is the one that another
       thread reads.

   What is lost? Nothing that a race or its place needs:
     - of accesses that are the same (thread, kind, place with the calls that tell its location, bytes) and
       have no conflicting one of another thread between them, the first and the last stand for all;
     - in the first phase of a variable, when no other thread had used it yet, the last alone does: each race
       of an earlier one with what comes after has the same place as one of the last;
     - a variable that one thread alone uses has no race.
   Accesses of several threads in one phase are reads, so what conflicts stands between two phases.

   More is recorded than needed where a cell has no free key, where an access covers several cells and isn't
   in the first phase of each, and where memory for cells ends. */
#define _GNU_SOURCE
#include <string.h>
#include <sys/mman.h>
#include <sys/syscall.h>
#include <unistd.h>
#include "cells.h"

#define USED_BY_ALL (~0u)              /* an owner that no thread is */
#define MAX_BLOCK (1ull << 32)         /* a longer one is no new variables, as the converter has it */
/* After so many uses without room one gets it, if the cell has no table, and so many cells are looked at. */
enum { OVERFLOWS = 8, LOOKS = 64 };
/* each thread brings new ones of readers */
enum { MOST_USES = USE_SLOTS / 4 * 3, MOST_OF_READERS = MOST_USES / 2 };
enum { CHUNK_BYTES = 4 << 20, CHUNKS = 1 << 14 };            /* memory is asked for in chunks */
enum { REGION_BYTES = sizeof(cell_region), PAGE_BYTES = CELLS_OF_PAGE * sizeof(cell) };
enum { REGIONS_BYTES = REGIONS * sizeof(cell_region *), USES_BYTES = USE_SLOTS * sizeof(cell_use) };

cell_region **cell_regions;
cell_use *cell_uses;
/* how many uses there are, and how many of readers */
static uint64_t use_count, readers_count, memory_left, memory_of_keys;
static char *chunks[CHUNKS];
static uint64_t chunk_count;
static struct pool { char *chunk; uint64_t left; } cell_pool, key_pool; /* what is left of a chunk */
static key_line *free_tables[MOST_LOG + 1]; /* by their log_lines; each leads to another one */

/* ---- memory ---- */
static void *new_memory(uint64_t bytes) {
    void *p = (void *)syscall(SYS_mmap, 0, bytes, PROT_READ | PROT_WRITE,
                              MAP_PRIVATE | MAP_ANONYMOUS | MAP_NORESERVE, -1, 0);
    return p == MAP_FAILED ? 0 : p;
}

void begin_cells(uint64_t most_bytes) {
    memory_left = most_bytes;
    memory_of_keys = most_bytes / 2;
    cell_regions = most_bytes ? new_memory(REGIONS_BYTES + USES_BYTES) : 0;
    cell_uses = (cell_use *)(cell_regions + REGIONS);
}

/* Each of its pieces of memory. */
static void for_all_memory(int (*step)(void *, size_t)) {
    for (uint64_t k = 0; k < chunk_count; k++) step(chunks[k], CHUNK_BYTES);
    for (uint64_t k = 0; k < REGIONS; k++)
        if (cell_regions[k]) step(cell_regions[k], REGION_BYTES);
    step(cell_regions, REGIONS_BYTES + USES_BYTES);
}

static int unlock(void *at, size_t bytes) { return munlock(at, bytes); }

void unlock_cells(void) { if (cell_regions) for_all_memory(unlock); }

void limit_cells(uint64_t bytes) { if (bytes < memory_left) memory_left = bytes; }

void end_cells(void) {
    if (cell_regions) for_all_memory(munmap);
    cell_regions = 0;
    use_count = readers_count = chunk_count = 0;
    cell_pool = key_pool = (struct pool){0};
    memset(free_tables, 0, sizeof free_tables);
}

static void *memory_from(struct pool *pool, uint64_t bytes) {
    if (pool->left < bytes) {
        char *chunk = memory_left >= CHUNK_BYTES && chunk_count < CHUNKS ? new_memory(CHUNK_BYTES) : 0;
        if (!chunk) return 0;
        memory_left -= CHUNK_BYTES;
        syscall(SYS_madvise, chunk, CHUNK_BYTES, MADV_HUGEPAGE); /* all of it gets used, and at random */
        pool->chunk = chunks[chunk_count++] = chunk;
        pool->left = CHUNK_BYTES;
    }
    pool->left -= bytes;
    return pool->chunk + pool->left;
}

/* Once there is no memory there never is: a page whose first accesses met no cells must get none later. */
static void *out_of_memory(void) {
    memory_left = cell_pool.left = 0;
    return 0;
}

/* ---- keys ---- */
typedef struct { uint32_t *use; uint64_t *word; } key;

static key key_in(key_line *line, int k) { return (key){&line->uses[k], &line->words[k]}; }
static int key_count(const cell *c) { return c->log_lines ? KEYS_OF_LINE << (c->log_lines - 1) : KEYS; }
static key key_at(cell *c, int k) {
    return c->log_lines ? key_in((key_line *)c->words[0] + k / KEYS_OF_LINE, k % KEYS_OF_LINE)
        : (key){&c->uses[k], &c->words[k]};
}
static int is_used(key key) { return key.use && *key.use; }
static int is_held(key key) { return *key.use && *key.word; }

/* Is there memory for one, without a call of the system? */
static int has_table(int log) {
    return log <= MOST_LOG && (free_tables[log] || key_pool.left >= sizeof(key_line) << (log - 1));
}

static key_line *new_table(int log) {
    uint64_t bytes = sizeof(key_line) << (log - 1);
    key_line *table = free_tables[log];
    if (table) {
        free_tables[log] = (key_line *)table->words[0];
        for (int n = 0; n < 1 << (log - 1); n++) table[n] = (key_line){0};
        return table;
    }
    table = memory_of_keys >= bytes ? memory_from(&key_pool, bytes) : 0;
    if (table) memory_of_keys -= bytes;
    return table;
}

static void free_table(cell *c) {
    if (!c->log_lines) return;
    key_line *table = (key_line *)c->words[0];
    table->words[0] = (uint64_t)free_tables[c->log_lines];
    free_tables[c->log_lines] = table;
    c->log_lines = 0;
}

/* That of a use, or the free one where it would be; none if it isn't there and the cell has no room. */
static inline key find_key(cell *c, uint32_t use) {
    if (c->log_lines)
        for (key_line *line = line_of_use(c, use);; line = next_line(c, line))
#pragma GCC unroll 5
            for (int k = 0; k < KEYS_OF_LINE; k++)
                if (line->uses[k] == use || !line->uses[k]) return key_in(line, k);
    for (int k = 0; k < KEYS; k++)
        if (c->uses[k] == use || !c->uses[k]) return key_at(c, k);
    return (key){0};
}

static uint64_t *fill_key(cell *c, key free, uint32_t use, uint64_t word) {
    c->used++;
    *free.use = use;
    *free.word = word;
    return free.word;
}

static uint64_t *insert_key(cell *c, uint32_t use, uint64_t word) {
    return fill_key(c, find_key(c, use), use, word);
}

/* Gives the cell a table, or one of twice the size. */
static int grow_keys(cell *c) {
    int log = c->log_lines + 1;
    key_line *table = log <= MOST_LOG ? new_table(log) : 0;
    cell grown = *c;
    if (!table) return 0;
    grown.words[0] = (uint64_t)table;
    grown.words[1] = (sizeof(key_line) << (log - 1)) - sizeof(key_line);
    grown.log_lines = log;
    grown.used = 0;
    for (int k = 0, count = key_count(c); k < count; k++) {
        key old = key_at(c, k);
        if (*old.use) insert_key(&grown, *old.use, *old.word);
    }
    free_table(c);
    *c = grown;
    return 1;
}

/* A fifth of a table stays free. */
static int is_full(const cell *c) {
    return c->used >= (c->log_lines ? (KEYS_OF_LINE - 1) << (c->log_lines - 1) : KEYS);
}

/* That of a use which the cell hasn't, in a larger table if it is full; or null. */
static uint64_t *add_key(cell *c, key free, uint32_t use, uint64_t word) {
    if (!is_full(c)) return fill_key(c, free, use, word);
    return grow_keys(c) ? insert_key(c, use, word) : 0;
}

/* ---- pages ---- */
/* Null where nothing of it is known; with `make` where there is no memory. */
static inline cell_page *page_at(uint64_t address, int make) {
    cell_region **region = &cell_regions[address >> REGION_BITS];
    if (!*region && make) *region = memory_left ? new_memory(REGION_BYTES) : 0;
    if (!*region && make) out_of_memory();
    return *region ? &(*region)->pages[address / CELL_PAGE % PAGES_OF_REGION] : 0;
}

/* The cells of a page that is known; or null. */
static cell **cells_at(uint64_t address) {
    return &cell_regions[address >> REGION_BITS]->cells[address / CELL_PAGE % PAGES_OF_REGION];
}

static cell *make_cells(cell_page *page, uint64_t address) {
    cell *cells = memory_from(&cell_pool, PAGE_BYTES);
    if (!cells) return out_of_memory();
    for (int k = 0; page->is_whole && k < CELLS_OF_PAGE; k++)
        cells[k] = (cell){.owner = page->owner, .number = page->number, .is_first = page->is_first};
    if (page->is_whole) memset(page->used, -1, sizeof page->used);
    return *cells_at(address) = cells;
}

static unsigned number_in_page(uint64_t address) { return address / GRAIN % CELLS_OF_PAGE; }
static uint64_t address_in_page(uint64_t address, unsigned k) {
    return address / CELL_PAGE * CELL_PAGE + k * GRAIN;
}

/* Its cell in a page that may be null; or null. */
static cell *cell_in(cell_page *page, uint64_t address) {
    cell *cells = page ? *cells_at(address) : 0;
    if (page && !cells) cells = make_cells(page, address);
    return cells ? &cells[number_in_page(address)] : 0;
}

/* ---- marks of cells ---- */
static uint64_t bit_of(uint64_t address) { return 1ull << address / GRAIN % 64; }
static int is_freed(const cell_page *page, uint64_t address) {
    return (page->freed[number_in_page(address) / 64] & bit_of(address)) != 0;
}

/* The bits in a word of marks of the cells from one to another. */
static uint64_t bits_between(unsigned word, unsigned first, unsigned last) {
    uint64_t bits = word == first / 64 ? ~0ull << first % 64 : ~0ull;
    return word == last / 64 ? bits & ~0ull >> (63 - last % 64) : bits;
}

static int has_freed(const cell_page *page) {
    uint64_t all = 0;
    for (int k = 0; k < MARKS; k++) all |= page->freed[k];
    return all != 0;
}

/* ---- uses ---- */
static int has_reader(uint64_t from) { return from << (64 - SET_AT) >> (64 - SET_AT + NUMBER_BITS) != 0; }

/* The number of a use, which gets one; or 0. */
static uint32_t number_of_use(cell_use use) {
    uint32_t slot = slot_of_use(use.what, use.from);
    while (!slot || (cell_uses[slot].what && !is_same(cell_uses[slot], use))) slot = (slot + 1) % USE_SLOTS;
    if (cell_uses[slot].what) return slot;
    if (use_count == MOST_USES || (has_reader(use.from) && readers_count == MOST_OF_READERS)) return 0;
    use_count++;
    readers_count += has_reader(use.from);
    cell_uses[slot] = use;
    return slot;
}

/* ---- phases ---- */
static void put_held(const cell *c, key key, uint64_t address) {
    const cell_use *use = &cell_uses[*key.use];
    uint64_t byte = use->what >> FIRST_BYTE & (GRAIN - 1), low = use->from % (1 << NUMBER_BITS);
    uint64_t first = (address / GRAIN - (c->owner == READERS ? 0 : low)) * GRAIN + byte;
    uint16_t number = c->owner == READERS ? low : c->number;
    put_late((record){first | (uint64_t)number << 48, use->what ^ byte << FIRST_BYTE}, *key.word);
}

/* Its owner stays, and the phase. */
static void put_keys(cell *c, uint64_t address) {
    for (int k = 0, count = key_count(c); k < count; k++)
        if (is_held(key_at(c, k))) put_held(c, key_at(c, k), address);
    free_table(c);
    memset(c->uses, 0, sizeof c->uses);
    c->used = 0;
}

static void begin_phase(cell_page *page, cell *c, uint64_t address, uint32_t serial, uint16_t number) {
    put_keys(c, address);
    int is_first = !c->owner && !is_freed(page, address);
    *c = (cell){.owner = serial, .number = number, .is_first = is_first, .is_only_read = 1};
    page->used[number_in_page(address) / 64] |= bit_of(address);
    page->is_whole = 0;
}

/* The next cell that has a table of this size gives it back: most cells are used seldom. */
static void take_table(int log) {
    static uint64_t at;
    for (int looks = 0; looks < LOOKS << log && !free_tables[log]; looks++) {
        cell *c = find_cell(at);
        if (c && c->log_lines == log) put_keys(c, at);
        at += c ? GRAIN : cell_regions[at >> REGION_BITS] ? CELL_PAGE : 1 << REGION_BITS;
        at %= CELL_ADDRESSES;
    }
}

/* Now and then it gets one, in a table of another cell's or in the place of the cell's others. That is
   rarer for a larger table: what is put for it is bounded by the uses without room. */
static uint64_t *make_key(cell *c, uint64_t address, uint32_t use, uint64_t word) {
    static unsigned overflows;
    if (++overflows % (OVERFLOWS << c->log_lines)) return 0;
    if (c->log_lines < MOST_LOG) take_table(c->log_lines + 1);
    if (!grow_keys(c)) put_keys(c, address);
    return insert_key(c, use, word);
}

/* Is a use of the cell's owner or of one of its readers held back? Right after the same one, with nothing
   between, it has its position. */
static int hold_in_cell(cell *c, uint64_t address, cell_use use, uint64_t word) {
    if (!is_read(use.what)) c->is_only_read = 0;
    uint32_t number = word ? number_of_use(use) : 0;
    if (!number) return 0;
    key found = find_key(c, number);
    if (!is_used(found)) {             /* the first of this kind, in this phase or since it was forgotten */
        word = c->is_first ? word_after(0, word) : NO_POSITION;
        return (add_key(c, found, number, word) || make_key(c, address, number, word)) && c->is_first;
    }
    if (is_right_behind(*found.word, word)) return IS_HELD_ALREADY;
    *found.word = word_after(*found.word, word);
    return IS_HELD;
}

/* A quick hook looks in that line alone where a search begins. There the use that is made now takes the place
   of another one, which the search for that finds in the place of this one. */
static uint64_t *bring_near(cell *c, key found, uint32_t use) {
    static unsigned turns;
    if (!c->log_lines || find_near(c, use)) return found.word;
    key near = key_in(line_of_use(c, use), turns++ % KEYS_OF_LINE);
    uint64_t word = *found.word;
    *found.use = *near.use;
    *found.word = *near.word;
    *near.use = use;
    *near.word = word;
    return near.word;
}

uint64_t *word_of_use(cell *c, uint64_t address, uint32_t serial, uint16_t number, cell_use use) {
    if (c->owner && c->owner != serial && c->owner != READERS) return 0;
    uint32_t slot = slot_of_use(use.what, use.from);
    if (!is_same(cell_uses[slot], use)) return 0;
    cell_page *page = c->owner ? 0 : page_at(address, 0);
    if (!c->owner && !is_freed(page, address)) begin_phase(page, c, address, serial, number);
    key found = find_key(c, slot);
    if (is_used(found)) return bring_near(c, found, slot);
    if (c->owner != serial || !c->is_first || (is_full(c) && !has_table(c->log_lines + 1))) return 0;
    c->is_only_read &= is_read(use.what);
    return add_key(c, found, slot, 0);
}

/* ---- phases of several readers ---- */
/* The uses of its one reader get that reader; or it is 0, where there is no room for them. */
static int give_to_readers(cell *c) {
    uint64_t reader = reader_of(c->owner, c->number), words[MOST_KEYS];
    uint32_t new[MOST_KEYS];
    if (c->owner == READERS) return 1;
    int used = 0;
    for (int k = 0, count = key_count(c); k < count; k++) {
        key old = key_at(c, k);
        if (!*old.use) continue;
        cell_use use = cell_uses[*old.use];
        int is_of_one = use.from << (64 - SET_AT) == 0;
        use.from |= reader;
        new[used] = is_of_one && reader ? number_of_use(use) : 0;
        words[used] = *old.word;
        if (!new[used++]) return 0;
    }
    for (int k = 0, count = key_count(c); k < count; k++) *key_at(c, k).use = 0;
    c->used = 0;
    for (int k = 0; k < used; k++) insert_key(c, new[k], words[k]);
    c->owner = READERS;
    return 1;
}

/* May another thread read it in this phase? */
static int is_for_readers(cell *c, uint32_t serial, cell_use use) {
    return c->owner && c->owner != serial && c->is_only_read && is_read(use.what) && has_reader(use.from)
        && number_of_use(use) && give_to_readers(c);
}

/* ---- accesses ---- */
static int hold_in_one(uint32_t serial, record r, uint64_t kind, uint64_t word) {
    uint64_t address = r.where & LOW_48_BITS;
    cell_page *page = page_at(address, 1);
    cell *c = cell_in(page, address);
    if (!c) return 0;
    cell_use use = {what_of_use(r.what, address), kind | reader_of(serial, r.where >> 48)};
    if (is_for_readers(c, serial, use)) return hold_in_cell(c, address, use, word);
    if (c->owner != serial) begin_phase(page, c, address, serial, r.where >> 48);
    use.from = kind;
    return hold_in_cell(c, address, use, word);
}

/* By an access of several, or a free: after it others aren't its readers alone. */
static void use_cell(cell_page *page, cell *c, uint64_t address, uint32_t serial, uint16_t number) {
    if (c->owner != serial) begin_phase(page, c, address, serial, number);
    c->is_only_read = 0;
}

/* Without cells it needs none. */
static void use_whole_page(cell_page *page, uint32_t serial, uint16_t number, uint64_t address) {
    cell *cells = *cells_at(address);
    if (page->is_whole && page->owner == serial) return;
    page->is_first = !cells && !page->is_whole && !has_freed(page);
    for (unsigned k = 0; cells && k < CELLS_OF_PAGE; k++)
        use_cell(page, &cells[k], address_in_page(address, k), serial, number);
    page->owner = serial;
    page->number = number;
    page->is_whole = 1;
}

/* For each piece of a range, from its address to where it stops, that lies in one page. */
static uint64_t end_in_page(uint64_t address, uint64_t end) {
    uint64_t page_end = (address / CELL_PAGE + 1) * CELL_PAGE;
    return page_end < end ? page_end : end;
}
#define EACH_PAGE(stop, address, end) \
    for (uint64_t stop; address < end && (stop = end_in_page(address, end)); address = stop)

static void use_range(uint32_t serial, uint16_t number, uint64_t address, uint64_t end) {
    EACH_PAGE(stop, address, end) {
        cell_page *page = page_at(address, 1);
        int is_whole = page && stop - address == CELL_PAGE;
        cell *c = is_whole ? 0 : cell_in(page, address);
        if (is_whole) use_whole_page(page, serial, number, address);
        for (uint64_t at = address / GRAIN * GRAIN; c && at < stop; at += GRAIN, c++)
            use_cell(page, c, at, serial, number);
    }
}

/* The word of a use that a cell has already, most are where the search for it begins; or null. */
static inline uint64_t *known_word(cell *c, cell_use use) {
    uint32_t slot = slot_of_use(use.what, use.from);
    key found = is_same(cell_uses[slot], use) ? find_key(c, slot) : (key){0};
    return is_used(found) ? found.word : 0;
}

/* The word of a use that the cell gets, if it hasn't it; null if it is in no first phase, or has no room. */
static uint64_t *new_word(cell *c, cell_use use) {
    uint32_t number = c->is_first ? number_of_use(use) : 0;
    key found = number ? find_key(c, number) : (key){0};
    return is_used(found) ? found.word : number ? add_key(c, found, number, 0) : 0;
}

ALWAYS_INLINE
int words_in_cells(uint32_t serial, cell_use use, uint64_t address, uint64_t end, uint64_t **words,
                   uint64_t *word_in(cell *, cell_use)) {
    int count = 0;
    cell *c = 0;
    uint64_t at = address / GRAIN * GRAIN;
    if (end - at > MOST_RANGE) return 0;
    for (; at < end; at += GRAIN, c++, use.from++) {
        if (!count || at % CELL_PAGE == 0) c = find_cell(at);
        words[count] = c && c->owner == serial ? word_in(c, use) : 0;
        if (!words[count++]) return 0;
    }
    return count;
}

int words_of_range(uint32_t serial, cell_use use, uint64_t address, uint64_t end, uint64_t **words) {
    return words_in_cells(serial, use, address, end, words, known_word);
}

/* It is held back if each of its cells can: so it is whole when one of them puts it. */
static int hold_in_several(uint32_t serial, record r, uint64_t end, uint64_t kind, uint64_t word) {
    uint64_t address = r.where & LOW_48_BITS, *words[MOST_CELLS];
    cell_use use = {what_of_use(r.what, address), kind};
    use_range(serial, r.where >> 48, address, end);
    int count = word ? words_in_cells(serial, use, address, end, words, new_word) : 0;
    if (count && is_right_behind(*words[0], word)) return IS_HELD_ALREADY;
    for (int k = 0; k < count; k++) *words[k] = word_after(*words[k], word);
    return count ? IS_HELD : 0;
}

/* Those that are zeros stay so: most blocks are new again before another thread comes. */
static void free_cells(cell_page *page, uint32_t serial, uint16_t number, uint64_t address, uint64_t end) {
    unsigned first = number_in_page(address), last = number_in_page(end - 1);
    cell *cells = *cells_at(address);
    for (unsigned w = first / 64; w <= last / 64; w++) {
        uint64_t bits = bits_between(w, first, last);
        page->freed[w] |= bits & ~page->used[w];
        for (uint64_t used = bits & page->used[w]; used; used &= used - 1) {
            unsigned k = 64 * w + __builtin_ctzll(used);
            use_cell(page, &cells[k], address_in_page(address, k), serial, number);
        }
    }
}

static void free_range(uint32_t serial, uint16_t number, uint64_t address, uint64_t end) {
    EACH_PAGE(stop, address, end) {
        cell_page *page = page_at(address, 1);
        if (!page || (page->is_whole && page->owner == serial)) continue;
        if (!page->is_whole || *cells_at(address) || make_cells(page, address))
            free_cells(page, serial, number, address, stop);
    }
}

/* Where nothing is known nothing is written: it may be much. */
static void clear_cells(cell_page *page, uint64_t address, uint64_t end) {
    unsigned first = number_in_page(address), last = number_in_page(end - 1);
    cell *cells = *cells_at(address);
    for (unsigned w = first / 64; w <= last / 64; w++) {
        uint64_t bits = bits_between(w, first, last);
        if (!((page->used[w] | page->freed[w]) & bits)) continue;
        for (uint64_t used = bits & page->used[w]; used; used &= used - 1) {
            cell *c = &cells[64 * w + __builtin_ctzll(used)];
            free_table(c);
            *c = (cell){0};
        }
        page->used[w] &= ~bits;
        page->freed[w] &= ~bits;
    }
}

/* New variables are there: what was held back of the old ones is over. */
static void renew(uint64_t address, uint64_t end) {
    uint64_t at = (address + GRAIN - 1) / GRAIN * GRAIN;
    if (end - address >= MAX_BLOCK) return;
    end = end / GRAIN * GRAIN;
    EACH_PAGE(stop, at, end) {
        cell_page *page = page_at(at, 0);
        if (!page) continue;
        if (page->is_whole && !*cells_at(at) && stop - at < CELL_PAGE && !make_cells(page, at)) continue;
        clear_cells(page, at, stop);
        if (page->is_whole) page->is_whole = 0;
    }
}

/* ---- what the recorder calls ---- */
static enum operation operation_of(record r) { return r.what >> 48 & 63; }

static int is_in_one(uint64_t address, uint64_t end) { return address / GRAIN == (end - 1) / GRAIN; }

/* An atomic access of several cells, or a use of an object: it is recorded, and may conflict with all. */
static int is_used_by_all(enum operation operation, uint64_t address, uint64_t end) {
    return is_atomic(operation) ? !is_in_one(address, end) : operation >= OP_LOCK_INIT
        && operation <= OP_DESTROY;
}

/* The first of most locks' cells is theirs already. */
static void use_by_all(uint64_t address, uint64_t end) {
    const cell *one = is_in_one(address, end) ? find_cell(address) : 0;
    if (!one || one->owner != USED_BY_ALL) use_range(USED_BY_ALL, 0, address, end);
}

int hold_back(uint32_t serial, record r, uint64_t bytes, uint64_t kind, uint64_t word) {
    enum operation operation = operation_of(r);
    uint64_t address = r.where & LOW_48_BITS, end = address + bytes;
    uint16_t number = r.where >> 48;
    if (!bytes || end > CELL_ADDRESSES) return 0;
    if (operation == OP_FREE) free_range(serial, number, address, end);
    else if (operation == OP_ALLOC || operation == OP_START) renew(address, end);
    else if (is_used_by_all(operation, address, end)) use_by_all(address, end);
    else if (operation <= OP_ATOMIC_UPDATE && is_in_one(address, end))
        return hold_in_one(serial, r, kind, word);
    else if (is_plain(operation)) return hold_in_several(serial, r, end, kind, word);
    return 0;
}
