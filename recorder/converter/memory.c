/* Blocks and pieces of memory.

   A block is what an allocation gave, or a stack; allocated again it is another block.  The accesses' bounds
   and those of the blocks *cut* memory into pieces, and a piece is a variable: so two accesses share a
   variable exactly where they overlap, and a long range that nobody cuts is one variable.  A piece is known
   by its address and its block.

   In the third pass there are no new cuts.  Then a page has a slot for each of its cuts, which has the number
   of the piece that begins there now; a new block empties its slots.  The cuts of 64 bytes stand beside their
   first slot, so a piece is found by one look at each of the page, these, the slot and the piece. */
#include "converter.h"

enum { PAGE = 4096, GRAIN = 16, MAX_PAGES = 1 << 24 };
#define MAX_BLOCK (1ull << 32)         /* a longer one is address space held in reserve: no new variables */

/* of 64 bytes: a bit for each; the slot of its first cut */
typedef struct { u64 cuts; u32 *slots; } stretch;
typedef struct {
    u32 cut_count, whole, *grains;     /* whole, grains: numbers of blocks */
    stretch *stretches;
    u32 *slots;
} page;

int cuts_all;
u64 extra_steps;
static VECTOR(block) blocks;
static u64 met;                        /* how many blocks in this pass */
static VECTOR(piece) pieces;
static VECTOR(piece_use) piece_uses;
static INTERNED(page) pages;

enum { RECENT = 4096 };
/* pages that were asked for, by the ends of their numbers; behind: the number plus one */
static struct { u64 behind; u32 found; } recent[RECENT];

static RARE page *find_page(u64 number, int make) {
    u32 found = make ? INTERN(pages, number, 0) : map_find(&pages.numbers, number, 0);
    if (!found) return 0;
    if (found > MAX_PAGES) die("the program used more than 64 GB of memory, or the record is damaged");
    recent[number & (RECENT - 1)].behind = number + 1;
    recent[number & (RECENT - 1)].found = found;
    return &pages.at[found - 1];
}

static inline page *page_of(u64 address, int make) {
    u64 number = address / PAGE, at = number & (RECENT - 1);
    return recent[at].behind == number + 1 ? &pages.at[recent[at].found - 1] : find_page(number, make);
}

/* The slot of the first cut at this byte of the page or behind it. */
static u32 *slot_of(const page *p, u64 byte) {
    if (byte == PAGE) return p->slots + p->cut_count;
    const stretch *s = &p->stretches[byte / 64];
    return s->slots + __builtin_popcountll(s->cuts & ((1ull << byte % 64) - 1));
}

static RARE void make_slots(page *p) {
    for (int k = 0; k < PAGE / 64; k++) p->cut_count += __builtin_popcountll(p->stretches[k].cuts);
    u32 *slot = p->slots = zeroed(p->cut_count, sizeof *p->slots);
    for (int k = 0; k < PAGE / 64; k++) {
        p->stretches[k].slots = slot;
        slot += __builtin_popcountll(p->stretches[k].cuts);
    }
}

static void empty_slots(page *p, u64 from, u64 end) {
    u32 *first = slot_of(p, from);
    memset(first, 0, (slot_of(p, end) - first) * sizeof *first);
}

static void allot(u64 from, u64 end, u32 number) {
    for (; from < end; extra_steps++) {
        page *p = page_of(from, 1);
        u64 page_end = (from / PAGE + 1) * PAGE, stop = end < page_end ? end : page_end;
        if (p->slots) empty_slots(p, from % PAGE, stop - (page_end - PAGE));
        if (stop - from == PAGE) p->whole = number;
        else {
            if (!p->grains) p->grains = zeroed(PAGE / GRAIN, sizeof *p->grains);
            for (u64 at = from; at < stop; at += GRAIN) p->grains[at % PAGE / GRAIN] = number;
        }
        from = stop;
    }
}

inline u32 number_at(u64 address) {
    const page *p = page_of(address, 0);
    if (!p) return 0;
    u32 grain = p->grains ? p->grains[address % PAGE / GRAIN] : 0;
    return grain > p->whole ? grain : p->whole;
}

block *block_at(u64 address) { return block_of(number_at(address)); }

void end_block(u64 address, u64 caller) {
    block *b = block_at(address);
    if (!b || b->at != address) return;
    if (b->freed || b->users != SEVERAL) b->freed_from = caller;
    b->freed = 1;
}

/* Only those of the thread that is always there. */
void write_blocks(const char *path) {
    FILE *file = fopen(path, "w");
    EACH_OF(b, blocks.at, file ? blocks.count : 0) {
        const record r[] = {{b->at, b->caller | (u64)OP_ALLOC << 48 | (u64)SIZE_FOLLOWS << 54},
                                   {b->size, (u64)OP_SIZE << 48}};
        if (!b->stack && !b->freed && block_at(b->at) == b) fwrite(r, sizeof r, 1, file);
    }
    if (!file) cannot_write(path);
    end_file(file, path);
}

inline u64 end_of_same(u64 from, u64 end) {
    if (end <= (from / GRAIN + 1) * GRAIN) return end;       /* most */
    const page *p = page_of(from, 0);
    u64 page_end = (from / PAGE + 1) * PAGE, stop = end < page_end ? end : page_end;
    u64 at = p && p->grains ? (from / GRAIN + 1) * GRAIN : stop;
    while (at < stop && p->grains[at % PAGE / GRAIN] == p->grains[from % PAGE / GRAIN]) at += GRAIN;
    extra_steps += at < end;
    return at < stop ? at : stop;
}

u32 block_count(void) { return blocks.count; }
u32 block_number(const block *b) { return b ? b - blocks.at + 1 : 0; }
block *block_of(u32 number) { return number ? &blocks.at[number - 1] : 0; }

void begin_memory_pass(void) {
    met = extra_steps = 0;
    EACH_OF(p, pages.at, pages.numbers.count) {
        p->whole = 0;
        if (p->grains) memset(p->grains, 0, PAGE / GRAIN * sizeof *p->grains);
    }
}

block *meet_block(const entry *e) {
    u64 size = size_of(e), from = e->address & ~(GRAIN - 1ull);
    u64 end = (e->address + size + GRAIN - 1) & ~(GRAIN - 1ull);
    if (!size || size >= MAX_BLOCK) return 0;
    if (++met > blocks.count) {        /* in the first pass */
        int is_stack = e->operation == OP_START;
        *PUSH(blocks) = (block){e->address, size, e->caller, .stack = is_stack,
                                .users = cuts_all ? SEVERAL : 0, .thread = e->thread};
        cut(from, end);
    }
    allot(from, end, met);
    return &blocks.at[met - 1];
}

static inline void cut_page(page *p, u64 byte) {
    if (!p->stretches) p->stretches = zeroed(PAGE / 64, sizeof *p->stretches);
    p->stretches[byte / 64].cuts |= 1ull << byte % 64;
}

inline void cut(u64 first, u64 second) {
    page *p = page_of(first, 1);
    cut_page(p, first % PAGE);
    cut_page(first / PAGE == second / PAGE ? p : page_of(second, 1), second % PAGE);
}

RARE u64 next_cut(u64 from, u64 end) {
    u64 at = from + 1;
    while (at < end) {
        page *p = page_of(at, 0);
        u64 page_end = (at / PAGE + 1) * PAGE, stop = end < page_end ? end : page_end;
        while (p && p->stretches && at < stop) {
            u64 bits = p->stretches[at % PAGE / 64].cuts >> at % 64;
            if (bits) {
                at += __builtin_ctzll(bits);
                extra_steps += at < end;
                return at < end ? at : end;
            }
            at = (at / 64 + 1) * 64;
        }
        at = page_end;
        extra_steps += at < end;
    }
    return end;
}

/* The new pieces that begin at the cuts from `from` on, by their slots. */
static RARE void make_pieces(u64 from, u64 cuts, u32 *slots) {
    u64 grain = 0;
    u32 number = 0;
    for (; cuts; cuts &= cuts - 1, slots++) {
        if (*slots) continue;
        u64 at = from + __builtin_ctzll(cuts);
        if (at / GRAIN != grain) number = number_at(at);
        grain = at / GRAIN;
        if (pieces.count == MOST_PIECES)
            die("the record has more variables than shb-std takes (%d)", MOST_PIECES);
        *PUSH(piece_uses) = (piece_use){0};
        *PUSH(pieces) = (piece){.at = at, .block = number};
        *slots = pieces.count;
    }
}

inline u32 neighbours_at(u64 *cut, u64 end, u32 *count) {
    u64 from = *cut, stop = (from / 64 + 1) * 64;
    page *p = page_of(from, 1);
    if (!p->slots) make_slots(p);
    u64 cuts = p->stretches[from % PAGE / 64].cuts >> from % 64;
    if (end < stop) cuts &= (1ull << (end - from)) - 1;
    u32 *slots = slot_of(p, from % PAGE), k = 1;
    if (!*slots) make_pieces(from, cuts, slots);
    u64 rest = cuts & (cuts - 1);
    for (; rest && slots[k] == *slots + k; k++) rest &= rest - 1;
    *count = k;
    extra_steps += rest ? k : k - 1;
    if (rest) *cut = from + __builtin_ctzll(rest);
    else *cut = end <= stop ? end : next_cut(from + 63 - __builtin_clzll(cuts), end);
    return *slots;
}

u32 piece_of_block(block *b) {
    if (!b->piece) {
        *PUSH(piece_uses) = (piece_use){0};
        *PUSH(pieces) = (piece){.at = b->at, .block = block_number(b)};
        b->piece = pieces.count;
    }
    return b->piece;
}

u32 piece_count(void) { return pieces.count; }
piece *piece_of(u32 number) { return &pieces.at[number - 1]; }
piece_use *use_of_piece(u32 number) { return &piece_uses.at[number - 1]; }
