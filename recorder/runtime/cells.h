/* cells.c: which accesses needn't be recorded when they are made. */
#include <stdint.h>
#include "../record.h"

#pragma GCC visibility push(hidden)

enum { KEYS = 2 };                     /* with these a cell has 32 bytes */
enum { KEYS_OF_LINE = 5 };             /* with these a line of a table has 64 */

/* What is known of 8 bytes of memory. A key is a use (below), or 0, and a word: 0 if the owner's last one is
   recorded, else its position, IS_REPEATED, and above that the number of the context that it was made in. */
typedef struct {
    uint32_t owner;                    /* serial number of who alone used it lately, or 0, or READERS */
    uint16_t number;                   /* of that thread in the record */
    uint16_t is_first : 1;             /* no thread used it before this phase */
    uint16_t is_only_read : 1;         /* in this phase */
    uint16_t log_lines : 4;            /* not 0: it has a table of 1 << (log_lines - 1) lines of keys */
    uint16_t used : 10;                /* how many keys it has */
    uint32_t uses[KEYS];
    /* of a table the first leads to it, and the second has the bytes from its first line to its last */
    uint64_t words[KEYS];
} cell;
/* the keys from the first on; where one is free the search for a use ends */
typedef struct {
    uint64_t words[KEYS_OF_LINE];
    uint32_t uses[KEYS_OF_LINE], unused;
} key_line;
enum { MOST_LOG = 7, MOST_KEYS = KEYS_OF_LINE << (MOST_LOG - 1) };
#define POSITIONS (IS_REPEATED - 1)
#define CONTEXT_AT (POSITION_BITS + 1)

/* The word of an access that is held back, by its use's last one. Before that is known it has IS_REPEATED. */
static inline uint64_t word_after(uint64_t before, uint64_t word) {
    return __builtin_expect_with_probability(before != 0, 1, 1) ? word : word & ~IS_REPEATED;
}
/* Was it made with nothing in between? */
static inline int is_right_behind(uint64_t before, uint64_t word) {
    return (before | IS_REPEATED) + 1 == word;
}

enum { GRAIN = 8, CELL_PAGE = 4096, CELLS_OF_PAGE = CELL_PAGE / GRAIN, ADDRESS_BITS = 47, REGION_BITS = 30 };
enum { REGIONS = 1 << (ADDRESS_BITS - REGION_BITS), PAGES_OF_REGION = (1 << REGION_BITS) / CELL_PAGE };
#define CELL_ADDRESSES (1ull << ADDRESS_BITS)

/* An owner that stands for all who read the cell in a phase without a write: then each use has its reader. */
#define READERS (~0u - 1)

/* A use is an access of a kind, at a place, of certain bytes of the cell's, in contexts of one kind
   (calls.c). It is known by its slot in a table, of which the first is none's. `what` is that of a record
   that tells no depth, and the byte in the first cell stands in bits of the operation, of which an access
   needs three. `from` is the kind of its context, the set of locks that are held, and below these the reader,
   or how many cells come before this one. */
typedef struct { uint64_t what, from; } cell_use;
enum { FIRST_BYTE = 51, GRAINS_BEFORE = 6, NUMBER_BITS = 16, SERIAL_BITS = 23, SET_BITS = 7,
       SET_AT = NUMBER_BITS + SERIAL_BITS, KIND_AT = SET_AT + SET_BITS };
enum { KINDS = 1 << (64 - KIND_AT), USE_SLOTS = 1 << 18 };
#define OF_ALL_DEPTHS ((uint64_t)DEPTH_BEFORE << (54 + LOGARITHM_BITS))
#define NO_KIND (~0ull)                /* no use is of that */

/* 0 for a thread that can't be one: so many were there before. */
static inline uint64_t reader_of(uint32_t serial, uint16_t number) {
    return serial >> SERIAL_BITS ? 0 : (uint64_t)serial << NUMBER_BITS | number;
}
static inline enum operation operation_of_use(uint64_t what) { return what >> 48 & 7; }
static inline int has_depth(uint64_t what) {
    return operation_of_use(what) <= OP_WRITE && !(what >> 54 & IS_RANGE);
}
static inline int is_same(cell_use one, cell_use other) {
    return one.what == other.what && one.from == other.from;
}
static inline int only_reads(enum operation operation) {
    return operation == OP_READ || operation == OP_ATOMIC_LOAD;
}
static inline int is_read(uint64_t what) { return only_reads(operation_of_use(what)); }
static inline uint64_t what_of_use(uint64_t what, uint64_t address) {
    return what | address % GRAIN << FIRST_BYTE | (has_depth(what) ? OF_ALL_DEPTHS : 0);
}

/* What is known of a page of memory. Of a page that is whole all is in a phase of one owner, with cells or
   without. A cell has a bit in `used` where it isn't zeros. One of zeros has a bit in `freed` where it was
   freed since it was new: no phase of it is a first one. */
enum { MARKS = CELLS_OF_PAGE / 64 };
typedef struct {
    uint32_t owner;
    uint16_t number;
    uint8_t is_whole, is_first;        /* is_first: of one without cells, as of a cell */
    uint64_t used[MARKS], freed[MARKS];
} cell_page;

typedef struct {
    cell *cells[PAGES_OF_REGION];      /* of each page, or null */
    cell_page pages[PAGES_OF_REGION];
} cell_region;

extern cell_region **cell_regions;     /* null where there are no cells */
extern cell_use *cell_uses;

/* Makes the tables, of at most so many bytes for cells; with 0, or without memory, all is recorded. */
void begin_cells(uint64_t most_bytes);
void end_cells(void);                  /* gives their memory back; what is held back is never recorded */
void unlock_cells(void);
void limit_cells(uint64_t bytes);      /* takes no more than so many from here on */

/* A record that is to be made now, of a thread with this serial number, which no other has. `bytes` is how
   many it accesses; of OP_ALLOC and OP_START how many are new. Is it held back? Then the word's position is
   used, and it was made in a context of this kind; or it isn't used, where the same one is held back right
   before. With NO_POSITION it is recorded. Puts late ones. */
enum { IS_HELD = 1, IS_HELD_ALREADY };
int hold_back(uint32_t serial, record r, uint64_t bytes, uint64_t kind, uint64_t word);
/* The word of a use in a cell, by its owner or one of its readers: it is held back by a new word. Null where
   it may not be, where that needs a record or more memory, or the use has no number yet. */
uint64_t *word_of_use(cell *c, uint64_t address, uint32_t serial, uint16_t number, cell_use use);
/* The words of an access of several cells, whose use in the first one this is, if each has it: how many, or
   0. Then all are in their first phase, and it is held back by a new word in each. */
enum { MOST_RANGE = ((1 << GRAINS_BEFORE) - 1) * GRAIN, MOST_CELLS = MOST_RANGE / GRAIN };
int words_of_range(uint32_t serial, cell_use use, uint64_t address, uint64_t end, uint64_t **words);
/* The program's, or a test's: records what was held back, with its word. */
void put_late(record r, uint64_t word);

#define NO_POSITION 0

/* What a use has that is made in a context of this kind, by the thread that the reader is. */
static inline uint64_t kind_in(const cell *c, uint64_t what, uint64_t kind, uint64_t reader) {
    return c->owner == READERS && is_read(what) ? kind | reader : kind;
}

static inline cell *find_cell(uint64_t address) {
    const cell_region *region = cell_regions[address >> REGION_BITS];
    cell *cells = region ? region->cells[address / CELL_PAGE % PAGES_OF_REGION] : 0;
    return cells ? &cells[address / GRAIN % CELLS_OF_PAGE] : 0;
}

/* Where the search for a use begins; most stand there. */
static inline uint32_t slot_of_use(uint64_t what, uint64_t from) {
    return (what + from) * 0x9E3779B97F4A7C15u >> 46;
}

static inline key_line *line_of_use(const cell *c, uint32_t use) {
    return (key_line *)(c->words[0] + (use * sizeof(key_line) & c->words[1]));
}
static inline key_line *next_line(const cell *c, const key_line *line) {
    return (key_line *)(c->words[0] + (((uint64_t)line - c->words[0] + sizeof *line) & c->words[1]));
}

static inline uint64_t *find_in_line(key_line *line, uint32_t use) {
#pragma GCC unroll 5
    for (int k = 0; k < KEYS_OF_LINE; k++)
        if (line->uses[k] == use) return &line->words[k];
    return 0;
}

/* The word of a use, or null; and also where it isn't in the line in which most are. */
static inline uint64_t *find_near(cell *c, uint32_t use) {
    if (c->log_lines) return find_in_line(line_of_use(c, use), use);
#pragma GCC unroll 7
    for (long k = 0; k < KEYS; k++)
        if (c->uses[k] == use) return &c->words[k];
    return 0;
}
#pragma GCC visibility pop
