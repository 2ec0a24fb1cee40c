/* What lies in blocks of the heap: names by the type that the allocation tells, or else by what accesses tell
   of objects in them. They are written when all events are. */
#include "converter.h"

enum { MOST_OWN = 4, MOST_OBJECTS = 32 };
/* what it tells, or 0 */
typedef struct { use_of_block use; u32 before, object, type_length; char *name; uint8_t is_other; } access;
/* An object of a block that accesses tell: its type, one of them, and how many places in the code tell it. */
typedef struct { u64 begin, size; u32 type, access, callers, before; uint8_t is_other; } object;
typedef struct { u32 last, count; } chain;                   /* the last one's number from 1, or 0 */
/* A variable in a block, with its name in there: the first so many bytes are the type's. */
typedef struct {
    u64 at, length;
    u32 block;
    chain own;
    size_t type_length;
    char *name;
    uint8_t is_other;                  /* as is_of_other_type tells */
} in_block;
static INTERNED(in_block) in_blocks;   /* by their places */
static VECTOR(access) accesses;
#define EACH_ACCESS(k, last) for (u32 k = last; k; k = accesses.at[k - 1].before)
static VECTOR(object) objects;
static INTERNED(chain) chains;         /* of blocks: their objects */

void note_in_block(u64 at, u32 block_number) {
    if (map_find(&in_blocks.numbers, at, block_number)) return;
    const block *b = block_of(block_number);
    u64 caller = allocated_by(block_number), end = b->at + b->size;
    inlined_frame *f = caller && !is_of_system(caller) ? frames_of(caller) : 0;
    if (!f || f->in_system) return;
    if (end - at > MOST_LENGTH) end = at + MOST_LENGTH;
    *ENTRY(in_blocks, at, block_number) =
        (in_block){.at = at, .length = next_cut(at, end) - at, .block = block_number};
}

void note_use_of_block(u64 at, u32 block_number, use_of_block use) {
    in_block *i = FOUND(in_blocks, at, block_number);
    chain *own = i ? &i->own : 0;
    EACH_ACCESS(k, own ? own->last : 0)
        if (accesses.at[k - 1].use.caller == use.caller) return;
    if (!own || own->count == MOST_OWN) return;
    *PUSH(accesses) = (access){.use = use, .before = own->last};
    *own = (chain){accesses.count, own->count + 1};
}

/* ---- names by uses ---- */
static chain *objects_of(u32 block_number) { return ENTRY(chains, block_number, 0); }

/* The number of an object of a block, from 1; 0 of too many. */
static u32 object_number(u32 block_number, object o) {
    chain *all = objects_of(block_number);
    for (u32 k = all->last; k; k = objects.at[k - 1].before) {
        const object *other = &objects.at[k - 1];
        if (other->begin == o.begin && other->size == o.size && other->type == o.type) return k;
    }
    if (all->count == MOST_OBJECTS) return 0;
    o.before = all->last;
    *PUSH(objects) = o;
    *all = (chain){objects.count, all->count + 1};
    return objects.count;
}

static size_t ask_access(u32 number, const in_block *i, char *name, object *o) {
    const block *b = block_of(i->block);
    const use_of_block *u = &accesses.at[number - 1].use;
    u64 asked[] = {b->size, u->at - b->at, u->length, u->writes, i->at - b->at, i->length};
    return name_by_use(u->caller, asked, name, &o->begin, &o->size, &o->is_other);
}

/* What the variable's own accesses tell of it, and of its block. */
static void ask_own(const in_block *i) {
    static map types, met;
    char name[NAME_BYTES];
    EACH_ACCESS(k, i->own.last) {
        access *a = &accesses.at[k - 1];
        object o = {.access = k};
        a->type_length = ask_access(k, i, name, &o);
        if (!a->type_length) continue;
        a->name = copied(name);
        a->is_other = o.is_other;
        name[a->type_length] = 0;
        o.type = map_text(&types, name);
        a->object = object_number(i->block, o);
        if (a->object) objects.at[a->object - 1].callers += map_adds(&met, a->object, a->use.caller);
    }
}

/* Behind the type's name, and the object's place: ".at.column". */
static const char *members_of(const access *a) {
    const char *members = strchr(a->name + a->type_length, '.');
    return members ? members : "";
}

static int ends_with(const char *text, const char *end) {
    size_t length = strlen(text), wanted = strlen(end);
    return length >= wanted && !strcmp(text + length - wanted, end);
}

/* Is one what the other is, or one of them within the other? */
static int are_together(const access *one, const access *other) {
    u64 size = objects.at[one->object - 1].size, other_size = objects.at[other->object - 1].size;
    if (size < other_size) return ends_with(members_of(other), members_of(one));
    return size > other_size ? ends_with(members_of(one), members_of(other))
        : !strcmp(one->name, other->name);
}

/* One that doesn't begin the block, and isn't an element by the text, is certain if several accesses
   tell it. */
static int is_certain(const access *a) {
    const object *o = &objects.at[a->object - 1];
    return !o->begin || a->name[a->type_length] == '[' || o->callers > 1;
}

static int is_larger(const access *a, const access *best) {
    if (!is_certain(a)) return 0;
    return !best->object || objects.at[a->object - 1].size > objects.at[best->object - 1].size;
}

/* Goes on to the largest object of the block's that has the variable; if its own accesses tell nothing, to
   one that is the whole block. 0 if what was told isn't within another one: then the memory has been of
   several types. */
static int find_larger(const in_block *i, access *best, char *name) {
    const block *b = block_of(i->block);
    int is_told = best->object != 0;
    u64 offset = i->at - b->at;
    for (u32 k = objects_of(i->block)->last; k; k = objects.at[k - 1].before) {
        object o = objects.at[k - 1];
        char other[NAME_BYTES];
        int is_there = k != best->object && o.begin <= offset && offset + i->length <= o.begin + o.size;
        access a = {.object = k, .name = other};
        if (!is_there || !(a.type_length = ask_access(o.access, i, other, &o))) continue;
        if (best->object && !are_together(&a, best)) return 0;
        if (!is_larger(&a, best) || (!is_told && o.size != b->size)) continue;
        *best = a;
        best->is_other = o.is_other;
        best->name = strcpy(name, other);
    }
    return 1;
}

/* By the largest object that is certain, if what all of the variable's own accesses tell fits. */
static size_t name_by_uses(in_block *i, char *name) {
    access best = {.object = 0};
    EACH_ACCESS(k, i->own.last)
        if (accesses.at[k - 1].object && is_larger(&accesses.at[k - 1], &best)) best = accesses.at[k - 1];
    EACH_ACCESS(k, best.object ? i->own.last : 0)
        if (accesses.at[k - 1].object && !are_together(&accesses.at[k - 1], &best)) return 0;
    if (best.object) best.name = strcpy(name, best.name);
    int is_found = find_larger(i, &best, name);
    i->is_other = is_found && best.is_other;
    return is_found ? best.type_length : 0;
}

static int by_type(const void *a, const void *b) {
    const in_block *one = a, *other = b;
    size_t least = one->type_length < other->type_length ? one->type_length : other->type_length;
    int order = one->name && other->name ? memcmp(one->name, other->name, least) : !one->name - !other->name;
    if (order || one->type_length != other->type_length)
        return order ? order : one->type_length < other->type_length ? -1 : 1;
    if (one->block != other->block) return one->block < other->block ? -1 : 1;
    return one->name ? strcmp(one->name, other->name) : 0;
}

static void find_names(void) {
    char name[NAME_BYTES];
    u64 count = in_blocks.numbers.count;
    EACH_OF(i, in_blocks.at, count) {
        const block *b = block_of(i->block);
        i->type_length = name_in_block(allocated_by(i->block), b->size, i->at - b->at, i->length, name,
                                       &i->is_other);
        if (i->type_length) i->name = copied(name);
        else ask_own(i);
    }
    EACH_OF(i, in_blocks.at, count)
        if (!i->type_length && (i->type_length = name_by_uses(i, name))) i->name = copied(name);
    if (count) qsort(in_blocks.at, count, sizeof *in_blocks.at, by_type);
}

/* ---- what is written ---- */
static int are_of_one_type(const in_block *one, const in_block *other) {
    return one->type_length == other->type_length && !memcmp(one->name, other->name, one->type_length);
}

/* Those of a type, which stand beside each other. Two variables of a block that would have one name
   have none. */
static void write_names_of_type(FILE *to, const in_block *first, const in_block *end) {
    int with_block = first->block != end[-1].block || is_variable(first->name, first->type_length);
    for (const in_block *i = first; i < end; i++) {
        int is_double = (i > first && i[-1].block == i->block && !strcmp(i[-1].name, i->name))
            || (i + 1 < end && i[1].block == i->block && !strcmp(i[1].name, i->name));
        if (is_double) continue;
        const block *b = block_of(i->block);
        part variable = variable_name(i->at, i->block);
        if (i->is_other) fprintf(to, "type %.*s\tother\n", TEXT(variable));
        fprintf(to, "local 0\t%.*s\t%.*s", TEXT(variable), own_length(i->name), i->name);
        if (with_block) {
            part origin = variable_name(b->at, i->block);
            fprintf(to, " of %.*s", TEXT(origin));
        }
        fputc('\n', to);
    }
}

void write_names_in_blocks(FILE *to) {
    find_names();
    const in_block *all = in_blocks.at;
    for (u64 k = 0, end, count = in_blocks.numbers.count; k < count && all[k].name; k = end) {
        for (end = k + 1; end < count && all[end].name && are_of_one_type(&all[k], &all[end]);) end++;
        write_names_of_type(to, &all[k], &all[end]);
    }
}
