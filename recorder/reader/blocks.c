/* Names of what lies in blocks of the heap: in what the C++ library allocates by the function that does so,
   for what it gives has a type; in others by the line. */
#include "debug.h"

/* The type of the first argument of a template; 0 where there is none. */
static int first_argument(Dwarf_Die *of, Dwarf_Die *type) {
    Dwarf_Die e;
    EACH_CHILD(&e, of)
        if (dwarf_tag(&e) == DW_TAG_template_type_parameter) return type_of(&e, type);
    return 0;
}

static int origin_of(Dwarf_Die *function) {
    return follow(function, DW_AT_abstract_origin) || follow(function, DW_AT_specification);
}

/* What a function of the C++ library's gives so many bytes for: T of `T *allocate(size_t)` and of
   `make_unique<T>()`; 0 of any other. */
static int allocated_type(Dwarf_Die function, u64 size, Dwarf_Die *type) {
    static const char unique[] = "make_unique";
    int has_argument = 0, steps = 0;
    Dwarf_Die argument, pointer;
    const char *name = dwarf_diename(&function);
    if (!name) return 0;
    if (!strcmp(name, "allocate") && type_of(&function, &pointer))
        return dwarf_tag(&pointer) == DW_TAG_pointer_type && type_of(&pointer, type);
    do has_argument = first_argument(&function, &argument);
    while (!has_argument && ++steps < MOST_STEPS && origin_of(&function));
    if (!has_argument || strncmp(name, unique, strlen(unique))) return 0;
    *type = argument;
    return dwarf_tag(&argument) == DW_TAG_array_type || size_of_type(&argument) == size;
}

static int is_type(int tag) {
    return tag == DW_TAG_structure_type || tag == DW_TAG_class_type || tag == DW_TAG_typedef;
}

int add_qualified_name(const Dwarf_Die *of, text *to) {
    Dwarf_Die named = *of, scope, e;
    for (int steps = 0; steps < MOST_STEPS && origin_of(&named); steps++) {}
    int of_type = is_type(dwarf_tag(&named));
    const char *before = "";
    if (!dwarf_diecu(&named, &scope, 0, 0)) return 0;
    for (int depth = 0; depth < MOST_STEPS; depth++) {
        Dwarf_Die at = {0};            /* is the named one, or has it inside */
        const void *last = scope.addr;
        int more = first_entry(&scope, &e, &last);
        for (; more && (char *)e.addr <= (char *)named.addr; more = next_entry(&e, &last)) at = e;
        if (!at.addr) return 0;
        int tag = dwarf_tag(&at);
        const char *name = dwarf_diename(&at);
        int is_in_code = tag == DW_TAG_module || tag == DW_TAG_subprogram || tag == DW_TAG_variable;
        int has_name = name && (tag == DW_TAG_namespace || is_type(tag) || (is_in_code && !of_type));
        char *begin = to->at;
        if (has_name) add_name(to, before, name, 0);
        if (has_name) before = "::";
        size_t length = strcspn(begin, of_type ? "" : "<");  /* of a function without what it is made for */
        to->room += to->at - (begin + length);
        *(to->at = begin + length) = 0;
        if (at.addr == named.addr) return has_name;
        scope = at;
    }
    return 0;
}

static int is_of_cxx_library(const char *type) {
    return starts_with(type, "std::") || starts_with(type, "__gnu_cxx::");
}

/* Does the C++ library keep another type's object in this one? */
static int is_buffer(const char *name) {
    return name && (starts_with(name, "__aligned_membuf<") || starts_with(name, "__aligned_buffer<"));
}

/* Are several members of this type? Then one of it isn't told by the type alone. */
static int has_two_of(Dwarf_Die *of, Dwarf_Die *type) {
    Dwarf_Die e, other;
    int found = 0;
    u64 place;
    EACH_CHILD(&e, of)
        found += dwarf_tag(&e) == DW_TAG_member && place_of_member(&e, &place) && type_of(&e, &other)
            && other.addr == type->addr;
    return found > 1;
}

/* Goes on to the program's own type that has these bytes, from one of the C++ library's, as a node of a list
   is; adds its name. 0 where there is none. */
static int find_own_type(Dwarf_Die *type, u64 *offset, u64 length, text *to) {
    Dwarf_Die named = *type;
    if (dwarf_tag(&named) == DW_TAG_typedef && plain_type(type) && !dwarf_diename(type))
        return add_qualified_name(&named, to);
    for (int steps = 0; steps < MOST_STEPS; steps++) {
        text begin = *to;
        Dwarf_Die member, of;
        u64 place;
        if (!plain_type(type) || !is_structure(type) || !add_qualified_name(type, to)) return 0;
        if (!is_of_cxx_library(begin.at)) return 1;
        *to = begin;
        if (is_buffer(dwarf_diename(type))) {
            if (!first_argument(type, &of)) return 0;
            *type = of;
            continue;
        }
        if (!member_with(type, *offset, length, &member, &place) || !type_of(&member, &of)
            || has_two_of(type, &of)) return 0;
        *offset -= place;
        *type = of;
    }
    return 0;
}

/* The elements of a block of so many bytes. Before those of `new T[n]`, where T has a destructor, stands
   their number; what may be either isn't known. */
typedef struct { u64 begin, size; } elements;
static elements elements_of(Dwarf_Die *type, u64 size) {
    enum { COUNT = 8 };
    elements found = {0};
    int is_array = dwarf_tag(type) == DW_TAG_array_type;
    if (is_array && !type_of(type, type)) return found;
    u64 one = size_of_type(type);
    if (!one || (is_array && COUNT % one == 0)) return found;
    if (size % one == 0) found.size = one;
    else if (is_array && size > COUNT && (size - COUNT) % one == 0) found = (elements){COUNT, one};
    return found;
}

/* Is it for a vector of bits, which share words? A function of the library's own allocates them. */
static int is_of_bits(debug *d, u64 pc) {
    static const char own[] = "std::_Bvector_base<";
    debug_frame frames[MOST_INLINED];
    int count = frames_at(d, pc, frames, MOST_INLINED), found = 0;
    for (int k = 0; k < count; k++) {
        found |= frames[k].function && starts_with(frames[k].function, own);
        free(frames[k].function);
    }
    return found;
}

/* The type of what a call allocates, if it is certain. Each is looked for once. */
static const allocation *allocated_at(debug *d, const place_in_block *at) {
    allocation *call = ENTRY(d->calls, at->pc, 0);
    Dwarf_Die function, type = {0};
    if (call->is_met) return call;
    int is_known = find_innermost(d, at->pc, &function)
        && (allocated_type(function, at->size, &type) || type_by_text(d, at->pc, at->size, &type));
    if (!is_known) type.addr = 0;
    *call = (allocation){type, is_of_bits(d, at->pc), 1};
    return call;
}

static named_part find_part(Dwarf_Die type, u64 offset, u64 length) {
    char name[NAME_BYTES] = "";
    text to = {name, sizeof name, 0, 0};
    named_part found = {.is_met = 1};
    if (!find_own_type(&type, &offset, length, &to)) return found;
    found.type = copied(name);
    char *rest = to.at;
    to.rest = offset;
    add_members(type, offset, length, &to);
    add_rest(&to);
    found.rest = copied(rest);
    found.is_other = to.is_other;
    return found;
}

/* The names of what lies so far inside a type. */
static named_part part_of(debug *d, Dwarf_Die type, u64 offset, u64 length) {
    named_part *part = ENTRY(d->parts, (u64)type.addr, offset << 32 | length);
    if (!part->is_met) *part = find_part(type, offset, length);
    return *part;
}

static size_t add_part(named_part part, const char *index, char *buffer, size_t size) {
    if (part.type) snprintf(buffer, size, "%s%s%s", part.type, index, part.rest);
    return part.type ? strlen(part.type) : 0;
}

static size_t add_bits(const place_in_block *at, char *buffer, size_t size) {
    static const char type[] = "std::vector<bool>";
    snprintf(buffer, size, "%s[%lu..%lu]", type, 8 * at->offset, 8 * (at->offset + at->length) - 1);
    return strlen(type);
}

int has_type(debug *d, place_in_block at) { return allocated_at(d, &at)->type.addr != 0; }

size_t add_in_block(debug *d, place_in_block at, char *buffer, size_t size, int *is_other) {
    const allocation *call = allocated_at(d, &at);
    Dwarf_Die type = call->type;
    if (call->is_of_bits) return add_bits(&at, buffer, size);
    if (!type.addr) return 0;
    elements all = elements_of(&type, at.size);
    if (!all.size || at.offset < all.begin) return 0;
    u64 offset = (at.offset - all.begin) % all.size;
    if (at.length > all.size - offset) return 0;
    char index[24] = "";
    if (at.size - all.begin > all.size)
        snprintf(index, sizeof index, "[%lu]", (at.offset - all.begin) / all.size);
    named_part part = part_of(d, type, offset, at.length);
    *is_other = part.is_other;
    return add_part(part, index, buffer, size);
}

size_t add_by_use(debug *d, object_in_block *object, u64 offset, u64 length, char *buffer,
                  size_t size) {
    char index[24] = "";
    u64 begin = object->begin;
    if (offset < begin || offset - begin >= object->size || length > object->size - (offset - begin))
        return 0;
    if (object->is_element && begin % object->size == 0)
        snprintf(index, sizeof index, "[%lu]", begin / object->size);
    else if (begin) snprintf(index, sizeof index, "+%lu", begin);
    named_part part = part_of(d, object->type, offset - begin, length);
    object->is_other = part.is_other;
    return add_part(part, index, buffer, size);
}
