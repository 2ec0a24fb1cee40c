/* The type of an object in a block by its uses: the source text at an access's column, as `j->done`, is a
   member of what a pointer points to, whose type the debug information tells. So an object of that type lies
   there, if it has the member's bytes at the access. What isn't certain by text and types has no meaning. */
#include "debug.h"

enum { WORD = 128, MOST_ENTRIES = 1 << 16 };
/* what the code sees */
typedef struct { debug *d; Dwarf_Die unit, function; int entries; } view;

static int has_name(Dwarf_Die *e, const char *name) {
    const char *own = dwarf_diename(e);
    return own && !strcmp(own, name);
}

/* ---- types, with the names that typedefs give them ---- */
static int tag_of_type(Dwarf_Die type) { return plain_type(&type) ? dwarf_tag(&type) : 0; }
static int target_of(Dwarf_Die type, Dwarf_Die *to) { return plain_type(&type) && named_type(&type, to); }

/* By its name, also of a base or of what has no name; adds to where it lies. -1 if it has no place, as
   a static. */
static int find_member(view *v, Dwarf_Die type, const char *name, Dwarf_Die *found, u64 *offset, int depth) {
    Dwarf_Die e, of;
    if (depth > MOST_DIMENSIONS || !plain_type(&type)) return 0;
    int is_union = dwarf_tag(&type) == DW_TAG_union_type;
    EACH_CHILD(&e, &type) {
        if (v->entries++ >= MOST_ENTRIES) break;
        u64 place = 0, bits, inside;
        int tag = dwarf_tag(&e), is_part = tag == DW_TAG_member || tag == DW_TAG_inheritance, is_found;
        int is_placed = is_part && (place_of_member(&e, &place) || place_of_bits(&e, &bits, &bits)
            || (is_union && !dwarf_hasattr(&e, DW_AT_external)));
        inside = *offset + place;
        if (is_part && (tag == DW_TAG_inheritance || !dwarf_diename(&e))) {
            is_found = named_type(&e, &of) ? find_member(v, of, name, found, &inside, depth + 1) : 0;
            if (is_found > 0 && !is_placed) return -1;       /* in a virtual base */
        } else if ((is_part || tag == DW_TAG_variable) && has_name(&e, name)) {
            *found = e;
            is_found = is_placed ? 1 : -1;
        } else continue;
        if (is_found > 0) *offset = inside;
        if (is_found) return is_found;
    }
    return 0;
}

/* ---- variables by their names ---- */
/* inner: where it may lie, as the blocks of a function, or the namespaces of a unit. */
typedef struct { view *v; const char *name; int inner; Dwarf_Die at, type; int is_found, is_unclear; } search;

/* Of several of one type it may be any. */
static int look_at(void *to, Dwarf_Die *e) {
    search *s = to;
    Dwarf_Die type;
    int tag = dwarf_tag(e);
    if (s->v->entries++ >= MOST_ENTRIES) s->is_unclear = 1;
    if (s->is_unclear) return STOP;
    if (tag == s->inner) return GO_IN;
    if ((tag != DW_TAG_variable && tag != DW_TAG_formal_parameter) || !has_name(e, s->name)) return GO_ON;
    s->is_unclear |= !named_type(e, &type) || (s->is_found && type.addr != s->type.addr);
    s->at = *e;
    s->type = type;
    s->is_found = 1;
    return GO_ON;
}

/* In the innermost function; of one that is inlined also what was left out there. */
static search local_named(view *v, const char *name) {
    search s = {.v = v, .name = name, .inner = DW_TAG_lexical_block};
    Dwarf_Die function = v->function;
    each_entry(&function, look_at, &s);
    if (follow(&function, DW_AT_abstract_origin)) each_entry(&function, look_at, &s);
    return s;
}

/* Each name is looked for once in a unit. No address: there is none, or it isn't clear which. */
static Dwarf_Die global_named(view *v, const char *name) {
    char key[WORD + 24];
    snprintf(key, sizeof key, "%lx %s", (u64)v->unit.addr, name);
    u32 number = map_text(&v->d->global_names, key);
    if (number > v->d->globals.count) {
        search s = {.v = v, .name = name, .inner = DW_TAG_namespace};
        each_entry(&v->unit, look_at, &s);
        if (!s.is_found || s.is_unclear) s.type.addr = 0;
        *PUSH(v->d->globals) = s.type;
    }
    return v->d->globals.at[number - 1];
}

/* ---- expressions ---- */
static int points_to(meaning *m, Dwarf_Die to) {
    *m = (meaning){.type = to, .object = to, .has_object = 1};
    return 1;
}

static int means_type(meaning *m, Dwarf_Die type) {
    Dwarf_Die to;
    m->type = type;
    int tag = tag_of_type(type);
    if (tag != DW_TAG_reference_type && tag != DW_TAG_rvalue_reference_type) return 1;
    return target_of(type, &to) && points_to(m, to);
}

static int means_target(meaning *m) {
    Dwarf_Die to;
    return tag_of_type(m->type) == DW_TAG_pointer_type && target_of(m->type, &to) && points_to(m, to);
}

static int means_member(view *v, meaning *m, const char *name) {
    Dwarf_Die member, type;
    u64 bits;
    int is_found = find_member(v, m->type, name, &member, &m->offset, 0);
    if (is_found <= 0) return is_found;
    m->has_member = 1;
    m->is_open |= place_of_bits(&member, &bits, &bits);
    return named_type(&member, &type) && means_type(m, type) ? 1 : -1;
}

static int means_element(meaning *m) {
    if (tag_of_type(m->type) != DW_TAG_array_type) return means_target(m) && (m->is_element = 1);
    m->is_open = 1;
    return target_of(m->type, &m->type);
}

/* As C and C++ look for a name: a local, a member of `this`, another variable. */
static int means_name(view *v, const char *word, meaning *m) {
    *m = (meaning){.has_object = 0};
    search s = local_named(v, word), of = local_named(v, "this");
    if (s.is_found || s.is_unclear) return !s.is_unclear && means_type(m, s.type);
    if (of.is_found && dwarf_hasattr_integrate(&of.at, DW_AT_artificial)) {
        int is_found = means_type(m, of.type) && means_target(m) ? means_member(v, m, word) : -1;
        if (is_found) return is_found > 0;
    }
    if (local_named(v, "__closure").is_found) return 0;      /* gcc's lambdas */
    *m = (meaning){.has_object = 0};
    Dwarf_Die type = global_named(v, word);
    return type.addr && means_type(m, type);
}

static const char *skip(const char *at) { return at + strspn(at, " \t"); }
static int is_arrow(const char *at) { return at[0] == '-' && at[1] == '>'; }

static int precedes(const char *sign, const char *line, const char *at) {
    ptrdiff_t length = strlen(sign);
    return at - line >= length && !strncmp(at - length, sign, length);
}

static const char *read_word(const char *at, char *word) {
    size_t length = 0;
    for (at = skip(at); is_of_word(*at) && length + 1 < WORD; at++) word[length++] = *at;
    word[length] = 0;
    return at;
}

/* After the bracket that belongs to the one here; null if it isn't in the line. */
static const char *behind_bracket(const char *at) {
    int depth = 0;
    do depth += (*at == '(' || *at == '[') - (*at == ')' || *at == ']');
    while (*at++ && depth);
    return depth ? 0 : at;
}

/* What the text from here to `end` means; 0 if that isn't known. */
static int means(view *v, const char *at, const char *end, meaning *m, int depth) {
    char word[WORD];
    at = skip(at);
    if (at >= end || depth > MOST_DIMENSIONS) return 0;
    if (*at == '*') return means(v, at + 1, end, m, depth + 1) && means_target(m);
    if (*at == '(') {
        const char *behind = behind_bracket(at);
        if (!behind || behind > end || !means(v, at + 1, behind - 1, m, depth + 1)) return 0;
        at = behind;
    } else {
        at = read_word(at, word);
        if (at > end || !*word || isdigit((unsigned char)*word) || !means_name(v, word, m)) return 0;
    }
    for (at = skip(at); at < end; at = skip(at)) {
        if (*at == '[') {
            if (!(at = behind_bracket(at)) || at > end || !means_element(m)) return 0;
        } else if (is_arrow(at) || *at == '.') {
            if (is_arrow(at) && !means_target(m)) return 0;
            at = read_word(at + 1 + is_arrow(at), word);
            if (at > end || means_member(v, m, word) <= 0) return 0;
        } else return 0;
    }
    return 1;
}

/* ---- the expression at a column ---- */
static const char *before_spaces(const char *line, const char *at) {
    while (at > line && isspace((unsigned char)at[-1])) at--;
    return at;
}

/* Where the bracket begins that ends before `at`. */
static const char *before_bracket(const char *line, const char *at) {
    int depth = 0;
    do at--, depth += (*at == ']' || *at == ')') - (*at == '[' || *at == '(');
    while (at > line && depth);
    return at;
}

/* Where the one begins that ends before `end`: names with members and indices. */
static const char *begin_before(const char *line, const char *end) {
    for (const char *at = end;;) {
        at = before_spaces(line, at);
        while (at > line && (at[-1] == ']' || at[-1] == ')')) at = before_bracket(line, at);
        while (at > line && is_of_word(at[-1])) at--;
        const char *before = before_spaces(line, at);
        if (precedes(".", line, before)) at = before - 1;
        else if (precedes("->", line, before)) at = before - 2;
        else return at;
    }
}

/* Names with members and indices that begin here: where they end, or null, and where the last index does. */
typedef struct { const char *end, *index_end; int indices; } names;
static names names_from(const char *at) {
    char word[WORD];
    names n = {0};
    at = skip(at);
    for (n.end = *at == '(' ? behind_bracket(at) : read_word(at, word); n.end;) {
        const char *next = skip(n.end);
        if (*next == '[') {
            n.index_end = n.end = behind_bracket(next);
            n.indices++;
        } else if (is_arrow(next) || *next == '.') n.end = read_word(next + 1 + is_arrow(next), word);
        else break;
    }
    return n;
}

static int means_from(view *v, const char *at, meaning *m) {
    const char *end = names_from(at).end;
    return end && means(v, at, end, m, 0);
}

static int means_before(view *v, const char *line, const char *end, meaning *m) {
    const char *begin = begin_before(line, end);
    return !precedes("::", line, begin) && means(v, begin, end, m, 0);
}

/* Is what begins here all that is assigned to? Before it may stand what ends a statement, or begins one. */
static int begins_statement(const char *line, const char *begin) {
    static const char *const words[] = {"if", "while", "for", "switch", "else", "do", "return"};
    const char *end = before_spaces(line, begin);
    if (end == line || (strchr(";{},(=:", end[-1]) && !precedes("::", line, begin))) return 1;
    if (end[-1] == ')') end = before_spaces(line, before_bracket(line, end));
    const char *word = end;
    while (word > line && is_of_word(word[-1])) word--;
    for (size_t k = 0; k < sizeof words / sizeof *words; k++)
        if (strlen(words[k]) == (size_t)(end - word) && !strncmp(words[k], word, end - word)) return 1;
    return 0;
}

/* A write is of what stands before the sign; a read may have the sign's column if all after it is what
   is read. */
static int means_assigned(view *v, const char *line, const char *at, int is_write, meaning *m) {
    if (*at == '=' && !is_write) {
        const char *end = names_from(at + 1).end;
        return end && strchr(";,)", *skip(end)) && *skip(end) && means(v, at + 1, end, m, 0);
    }
    const char *begin = begin_before(line, at);
    for (const char *star; (star = before_spaces(line, begin)) > line && star[-1] == '*';) begin = star - 1;
    return begins_statement(line, begin) && means(v, begin, before_spaces(line, at), m, 0);
}

static int is_assignment(const char *at) {
    size_t length = strspn(at, "+-*/%&|^<>");
    int is_comparison = (length == 1 && strchr("<>", *at)) || at[length + (at[length] != 0)] == '=';
    return length <= 2 && at[length] == '=' && !is_comparison;
}

/* A lock, or the object of an atomic operation, if it is the argument. */
static int means_argument(view *v, const char *function, const char *at, meaning *m) {
    static const char *const all[] = {"pthread_", "sem_", "mtx_", "cnd_", "__atomic_", "__sync_", "atomic_"};
    enum { OF_LOCKS = 4, ALL = sizeof all / sizeof *all };
    int k = 0;
    while (k < ALL && strncmp(function, all[k], strlen(all[k]))) k++;
    at = skip(at);
    m->has_member = 0;
    if (k == ALL || *at != '&' || !means_from(v, at + 1, m)) return 0;
    m->is_lock = k < OF_LOCKS;
    return 1;
}

/* At a name: a member, a call's function, or where clang has the begin of an element. */
static int means_word(view *v, const char *line, const char *at, meaning *m) {
    char word[WORD];
    const char *behind = read_word(at, word), *next = skip(behind), *before = before_spaces(line, at);
    const names all = names_from(at);
    if (*next == '(') return means_argument(v, word, next + 1, m);
    if (precedes(".", line, before) || precedes("->", line, before)) return means_before(v, line, behind, m);
    if (precedes("::", line, before) || !all.end) return 0;
    if (!all.indices) return means(v, at, behind, m, 0);
    int may_be_name = means_name(v, word, m) && m->has_member;
    return all.indices == 1 && !may_be_name && means(v, at, all.index_end, m, 0);
}

/* What the access at a column means. Compilers have for a read the column of the last `->`, `.` or `[`, of
   the name after it, or of its end or begin; for a write that of the assignment; for a call its own. */
static int means_at(view *v, const char *line, const char *at, int is_write, meaning *m) {
    char word[WORD];
    const char *behind = at;
    if (is_of_word(*at)) return means_word(v, line, at, m);
    if (is_assignment(at)) return means_assigned(v, line, at, is_write, m);
    if ((at[0] == '+' || at[0] == '-') && at[1] == at[0]) {
        const char *next = skip(at + 2);
        if (is_of_word(*next) || *next == '(') return means_from(v, next, m);
    } else if (is_arrow(at) || *at == '.') behind = read_word(at + 1 + is_arrow(at), word);
    else if (*at == '[') behind = behind_bracket(at);
    else if (*at == ']') behind = at + 1;
    else return 0;
    return behind && means_before(v, line, behind, m);
}

/* ---- where the object lies ---- */
/* Where in the block it begins; 0 if it doesn't lie in there, or may begin at several places. */
static int begin_of_object(const meaning *m, const place_in_block *at, u64 size, u64 *begin) {
    Dwarf_Die member = m->type;
    u64 length = size_of_type(&member);
    if (at->offset < m->offset || size > at->size || at->offset > at->size) return 0;
    u64 latest = at->offset - m->offset, last = at->size - size;
    *begin = latest < last ? latest : last;
    if (m->is_open) return *begin == (at->offset + at->length > size ? at->offset + at->length - size : 0);
    return latest <= last && (m->is_lock ? at->length <= 1 : length == at->length);
}

meaning meaning_in_line(debug *d, u64 pc, int is_write, const char *line, int column) {
    static const meaning none;
    view v = {.d = d};
    meaning m = none;
    if (!find_unit(d, pc, &v.unit) || !find_innermost(d, pc, &v.function) || (size_t)column > strlen(line))
        return none;
    return means_at(&v, line, line + column - 1, is_write, &m) && m.has_member && m.has_object ? m : none;
}

static meaning find_meaning(debug *d, u64 pc, int is_write) {
    char line[LINE_BYTES];
    const char *path;
    int number, column, is_told = line_at(d, pc, &path, &number, &column) && column > 0;
    if (!is_told || strstr(path, "/include/c++/") || !read_line(path, number, line))
        return (meaning){.has_object = 0};
    return meaning_in_line(d, pc, is_write, line, column);
}

/* Each access in the code is looked at once. */
int object_by_use(debug *d, place_in_block use, int is_write, object_in_block *found) {
    meaning *m = ENTRY(d->meanings, use.pc, is_write);
    if (!m->is_met) *m = find_meaning(d, use.pc, is_write);
    m->is_met = 1;
    *found = (object_in_block){.type = m->object, .is_element = m->is_element};
    found->size = m->has_object ? size_of_type(&found->type) : 0;
    return found->size && begin_of_object(m, &use, found->size, &found->begin);
}
