/* What std::map, set, list and string read and write in functions of the C++ library, which have no hooks: by
   their symbols, of the library's present layout, which its programs have in them. An insertion or removal
   writes the ends of a tree, whichever node it is of, for by the C++ standard it changes the container: a
   search or walk that nothing orders with it is a race. A step reads the node's own links; those of the nodes
   that it passes aren't recorded. A node that is put in is new, and one that is taken out is freed. */
#include "hold.h"
#include "libraries.h"
#include "library.h"

typedef struct tree_node { int color; struct tree_node *parent, *left, *right; } tree_node;
typedef struct list_node { struct list_node *next, *previous; } list_node;

static RARE void note_link(enum operation operation, const void *link, uint64_t caller) {
    hook(operation, (uint64_t)link, sizeof(void *), caller);
}
#define READS_LINK(link) note_link(OP_READ, &(link), caller)
#define WRITES_LINK(link) note_link(OP_WRITE, &(link), caller)
#define HOOKED(version, type, name, parameters, arguments, ...) \
    WRAPS_HIDDEN(version, type, name, parameters) { \
        uint64_t caller = CALLER; \
        if (others && instrumented(caller)) { __VA_ARGS__; } \
        return REAL_HIDDEN(name) arguments; \
    }

/* ---- trees ---- */
#define STEP(name) \
    HOOKED(GLIBCXX_3.4, tree_node *, name, (tree_node *x), (x), \
           READS_LINK(x->right); if (!x->right) READS_LINK(x->parent))
STEP(_ZSt18_Rb_tree_incrementPSt18_Rb_tree_node_base)
STEP(_ZSt18_Rb_tree_incrementPKSt18_Rb_tree_node_base)
/* Before the end is the last one, as it has it in the place of a right one. */
static void steps_back(tree_node *x, uint64_t caller) {
    int is_end = !x->color && x->parent && x->parent->parent == x;
    if (is_end) READS_LINK(x->right);
    else READS_LINK(x->left);
    if (!is_end && !x->left) READS_LINK(x->parent);
}
#define STEP_BACK(name) HOOKED(GLIBCXX_3.4, tree_node *, name, (tree_node *x), (x), steps_back(x, caller))
STEP_BACK(_ZSt18_Rb_tree_decrementPSt18_Rb_tree_node_base)
STEP_BACK(_ZSt18_Rb_tree_decrementPKSt18_Rb_tree_node_base)

static void writes_ends(tree_node *end, uint64_t caller) {
    WRITES_LINK(end->parent);
    WRITES_LINK(end->left);
    WRITES_LINK(end->right);
}

HOOKED(GLIBCXX_3.4, void, _ZSt29_Rb_tree_insert_and_rebalancebPSt18_Rb_tree_node_baseS0_RS_,
       (_Bool is_left, tree_node *x, tree_node *above, tree_node *end), (is_left, x, above, end),
       writes_ends(end, caller);
       if (above != end) WRITES_LINK(*(is_left ? &above->left : &above->right)))
HOOKED(GLIBCXX_3.4, tree_node *, _ZSt28_Rb_tree_rebalance_for_erasePSt18_Rb_tree_node_baseRS_,
       (tree_node *x, tree_node *end), (x, end),
       tree_node *above = x->parent, *left = x->left, *right = x->right;
       writes_ends(end, caller);
       if (above != end) WRITES_LINK(*(above->left == x ? &above->left : &above->right));
       if (left) WRITES_LINK(left->parent);
       if (right) WRITES_LINK(right->parent))

/* ---- lists ---- */
#define LIST(name, parameters, arguments, ...) \
    HOOKED(GLIBCXX_3.4.15, void, _ZNSt8__detail15_List_node_base##name, parameters, arguments, __VA_ARGS__)
LIST(7_M_hookEPS0_, (list_node *x, list_node *p), (x, p),
     WRITES_LINK(p->previous); WRITES_LINK(p->previous->next))
LIST(9_M_unhookEv, (list_node *x), (x),
     READS_LINK(x->next); WRITES_LINK(x->previous->next); WRITES_LINK(x->next->previous))
LIST(11_M_transferEPS0_S1_, (list_node *p, list_node *first, list_node *last), (p, first, last),
     if (p != last) {
         list_node *links[] = {last->previous, first->previous, p->previous};
         for (int k = 0; k < 3; k++) WRITES_LINK(links[k]->next);
         WRITES_LINK(p->previous);
         WRITES_LINK(last->previous);
         WRITES_LINK(first->previous);
     })
LIST(10_M_reverseEv, (list_node *x), (x),
     list_node *at = x;
     do WRITES_LINK(at->next), WRITES_LINK(at->previous);
     while ((at = at->next) != x))

static void swaps(list_node *x, uint64_t caller) {
    list_node *next = x->next, *previous = x->previous;
    WRITES_LINK(x->next);
    WRITES_LINK(x->previous);
    if (next == x) return;
    WRITES_LINK(next->previous);
    WRITES_LINK(previous->next);
}
LIST(4swapERS0_S1_, (list_node *x, list_node *y), (x, y), swaps(x, caller); swaps(y, caller))

/* ---- strings ---- */
/* By the standard each call that isn't const changes the string, but for those that only give access to
   characters. So it writes the words that say where these are and how many, which all others read. Of the
   characters a call reads and writes those that it uses; and where the block may become another one, it
   writes all of the old one. strings.py says which calls there are. */
typedef unsigned __int128 two_words;   /* what a call returns, if not where its first word says */
typedef struct { char *characters; uint64_t length, capacity; } string; /* a short one is in the capacity */
typedef union { uint64_t n; const char *text; string *s; } argument;
typedef struct { uint64_t caller, added; string was; } string_call;
#define ALL (~0ull)
#define APART static RARE      /* two hundred calls are made of them */

static int is_short(const string *s) { return s->characters == (char *)&s->capacity; }
static uint64_t capacity_of(const string *s) {
    return is_short(s) ? 2 * sizeof s->capacity - 1 : s->capacity;
}

static void note_words(string_call *its, enum operation operation, string *s) {
    note_link(operation, &s->characters, its->caller);
    note_link(operation, &s->length, its->caller);
}
APART int is_seen(uint64_t caller) { return others && instrumented(caller); }
APART void reads_words(string_call *its, string *s) { note_words(its, OP_READ, s); }
APART void writes_words(string_call *its, string *s) { note_words(its, OP_WRITE, s); }
APART void writes(string_call *its, const char *from, uint64_t count) {
    note_range(its->caller, OP_WRITE, from, count);
}
APART void reads_text(string_call *its, const char *from, uint64_t count) {
    note_range(its->caller, OP_READ, from, count);
    its->added += count;
}
APART void reads_part(string_call *its, string *s, uint64_t from, uint64_t count) {
    reads_words(its, s);
    if (from < s->length) reads_text(its, s->characters + from, least(count, s->length - from));
}
/* From the first character that was looked at to the last. */
APART void found(string_call *its, string *s, uint64_t first, uint64_t last) {
    reads_part(its, s, first, last < first ? 0 : least(last, s->length) - first + its->added);
}

APART void made(string_call *its, string *s) {
    writes_words(its, s);
    writes(its, s->characters, s->length + 1);
}
/* Its block goes as it is. */
APART void moves(string_call *its, string *s) {
    writes_words(its, s);
    if (is_short(s)) writes(its, s->characters, s->length + 1);
}
APART void grows(string_call *its, const string *s, uint64_t length) {
    its->added = length - least(length, s->length);
}
APART void will_change(string_call *its, string *s) {
    writes_words(its, s);
    its->was = *s;
    if (its->added > capacity_of(s) - s->length) writes(its, s->characters, s->length + 1);
}
/* From there on; only so many where block and length are what they were. */
APART void changed(string_call *its, string *s, uint64_t from, uint64_t count) {
    int is_moved = s->characters != its->was.characters;
    if (is_moved || s->length != its->was.length) count = ALL;
    if (is_moved) from = 0;
    if (from <= s->length) writes(its, s->characters + from, least(s->length - from + 1, count));
}
APART void changed_end(string_call *its, string *s) { changed(its, s, least(its->was.length, s->length), 1); }

#define ARGUMENTS argument a, argument b, argument c, argument d, argument e, argument f
#define STRING(version, name, before, after) \
    WRAPS_HIDDEN(version, two_words, name, (ARGUMENTS)) { \
        string_call its = {.caller = CALLER}; \
        int seen = is_seen(its.caller); \
        if (seen) { before; } \
        two_words r = REAL_HIDDEN(name)(a, b, c, d, e, f); \
        if (seen) { after; } \
        return r; \
    }
#include "strings.inc"
