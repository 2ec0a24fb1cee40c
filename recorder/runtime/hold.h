/* The quick hook: an access that its thread repeats in a cell that it owns, or reads with others, is held
   back by a few instructions. It is quick where no waiter doubts that the thread needs the turn (turn.c), the
   functions that it is in are recorded, and the cell has the use already. Then nothing changes but the
   position of that use. Such a hook is a step, as others are. Its calls are jumps: no registers are saved. */
#include "runtime.h"

void note_access(enum operation operation, uint64_t address, uint64_t size, uint64_t caller);
void hold_elsewhere(thread *t, cell *c, uint64_t what, uint64_t address);

/* A thread's last hook, if that left the value as it was. Its operation stands where a record has it. */
static inline uint64_t read_at(uint64_t address, uint64_t caller) {
    return ((caller ^ address << 20) & ~(63ull << 48)) | (uint64_t)OP_READ << 48;
}

/* The word of a use that is made now. */
static inline uint64_t word_now(const thread *t) {
    return (uint64_t)t->in->number << CONTEXT_AT | (t->base + t->steps);
}

/* Is it held back? It repeats so many that left the value as it was; right after the same one, with nothing
   in between, it has that one's position. A plain read there isn't held back: a loop of these may wait for
   another thread (note_spin). */
#define IS_PLAIN (-1)                  /* in the place of `repeats` */
ALWAYS_INLINE
int hold_quickly(thread *t, uint64_t *word, enum operation operation, uint64_t what, int repeats) {
    uint64_t new = word_now(t);
    int is_repeated = (only_reads(operation) || repeats > 0) && is_right_behind(*word, new);
    if (is_repeated && repeats == IS_PLAIN) return 0;
    if (is_repeated) t->base--;
    else *word = word_after(*word, new);
    t->last = what;
    t->steps++;
    changes += !only_reads(operation);
    return 1;
}

static inline int may_be_quick(const thread *t, uint64_t address, uint64_t size) {
    return t && t->limit && size <= GRAIN && address % GRAIN <= GRAIN - size;
}

static inline int is_usual(const thread *t, uint64_t address) {
    return t->steps < t->limit && t == quick_holder && is_numbered(t->in) && address < CELL_ADDRESSES;
}

/* Null where the hook isn't quick. */
static inline cell *usual_cell(const thread *t, uint64_t address) {
    return is_usual(t, address) ? find_cell(address) : 0;
}

/* The word of a use in a cell of the thread's, or of readers; null if it isn't in the line that has most. */
static inline uint64_t *word_near(const thread *t, cell *c, enum operation operation, uint64_t what) {
    int is_of_readers = c->owner == READERS && only_reads(operation);
    cell_use use = {what, is_of_readers ? t->kind | t->reader : t->kind};
    uint32_t slot = slot_of_use(use.what, use.from);
    return (c->owner == t->serial || is_of_readers) && is_same(cell_uses[slot], use) ? find_near(c, slot) : 0;
}

ALWAYS_INLINE
void hook(enum operation operation, uint64_t address, uint64_t size, uint64_t caller) {
    thread *t = self;
    if (!may_be_quick(t, address, size)) return note_access(operation, address, size, caller);
    t->inside = 1;                     /* no handler comes now, which may change what is read below */
    KEEP_ORDER();
    cell *c = usual_cell(t, address);
    uint64_t what = caller + what_of_use((uint64_t)operation << 48 | (uint64_t)__builtin_ctzl(size) << 54,
                                         size < GRAIN ? address : 0);
    if (!c) return hold_elsewhere(t, 0, what, address);
    uint64_t *word = word_near(t, c, operation, what);
    if (!word || !hold_quickly(t, word, operation, what, IS_PLAIN))
        return hold_elsewhere(t, c, what, address);
    end_hook(t);
}

/* The hook of an atomic operation, in which it is made. It is held back as an access is: by the turn, which
   the thread has from the hook's begin to its next one, nobody comes between the position and the operation,
   and by the cell, nobody else used the value since the phase began. Whether it gives or takes hangs on its
   kind alone, so the last of a kind stands for all (cells.c). A loop of those that leave the value as it is
   may wait for another thread, too. So after some of these one isn't quick, and the slice ends. */
enum { MOST_REPEATS = 64 };
ALWAYS_INLINE
int begin_quick_atomic(enum operation operation, uint64_t address, uint64_t size, uint64_t size_and_order,
                       uint64_t caller) {
    thread *t = self;
    if (!may_be_quick(t, address, size)) return 0;
    int repeats = t->last == read_at(address, caller) ? t->spins + 1 : 0;
    if (repeats > MOST_REPEATS) return 0;
    t->inside = 1;
    KEEP_ORDER();
    cell *c = usual_cell(t, address);
    uint64_t what = caller + what_of_use((uint64_t)operation << 48 | size_and_order << 54, address);
    uint64_t *word = c ? word_near(t, c, operation, what) : 0;
    int is_held = word && hold_quickly(t, word, operation, what, repeats);
    if (is_held) t->spins = repeats;
    else end_hook(t);
    return is_held;
}

static inline void end_quick_atomic(uint64_t last) {
    thread *t = self;
    t->last = last;
    end_hook(t);
}
