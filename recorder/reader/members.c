/* Members of a program's variables, by its debug information: "queue+8" is "queue.head" (what isn't told
   stays a number of bytes), and locals of its functions. */
#include "debug.h"

/* ---- variables ---- */
static u64 address_of_variable(Dwarf_Die *die) {
    Dwarf_Attribute a, number;
    Dwarf_Op *operations;
    Dwarf_Addr address = 0;
    size_t count;
    if (dwarf_getlocation(dwarf_attr(die, DW_AT_location, &a), &operations, &count) || !count) return 0;
    /* A value that is kept in fewer bits has more operations. */
    if (count > 1 && operations[count - 1].atom != DW_OP_stack_value) return 0;
    if (operations->atom == DW_OP_addr) return operations->number;
    int is_numbered = operations->atom == DW_OP_addrx || operations->atom == DW_OP_GNU_addr_index;
    return is_numbered && !dwarf_getlocation_attr(&a, operations, &number)
        && !dwarf_formaddr(&number, &address) ? address : 0;
}

static int note_variable(void *to, Dwarf_Die *e) {
    debug *d = to;
    int tag = dwarf_tag(e);
    u64 address = tag == DW_TAG_variable ? address_of_variable(e) : 0;
    Dwarf_Die *known = address ? ENTRY(d->variables, address + d->bias, 0) : 0;
    if (known && !known->addr) *known = *e;
    if (tag == DW_TAG_namespace || tag == DW_TAG_module) return GO_IN;
    int is_code = tag == DW_TAG_subprogram || tag == DW_TAG_lexical_block || tag == DW_TAG_inlined_subroutine;
    return is_code && d->has_variables > 1 ? GO_IN : GO_ON;
}

/* Those in functions are read when one isn't among the others. */
Dwarf_Die *variable_at(debug *d, u64 address) {
    Dwarf_Die *found = 0;
    read_units(d);
    for (int many = 1; !(found = FOUND(d->variables, address, 0)) && many <= 2; many++) {
        if (d->has_variables >= many) continue;
        d->has_variables = many;
        EACH(u, d->units) each_entry(&u->whole, note_variable, d);
    }
    return found;
}

/* ---- what lies at an offset of a type ---- */
int follow(Dwarf_Die *die, unsigned attribute) {
    Dwarf_Attribute a;
    Dwarf_Die to;
    if (!dwarf_formref_die(dwarf_attr_integrate(die, attribute, &a), &to)) return 0;
    *die = to;
    return 1;
}

int plain_type(Dwarf_Die *type) {
    for (int steps = 0; steps < MOST_STEPS && !dwarf_peel_type(type, type); steps++) {
        if (!dwarf_hasattr(type, DW_AT_signature)) return 1;
        if (!follow(type, DW_AT_signature)) return 0;
    }
    return 0;
}

int named_type(Dwarf_Die *of, Dwarf_Die *type) {
    *type = *of;
    return follow(type, DW_AT_type);
}

int type_of(Dwarf_Die *of, Dwarf_Die *type) { return named_type(of, type) && plain_type(type); }

/* How many elements an array has in each of its dimensions, 0 of none that is told, and the first index: if
   none is told that of the language, 1 in Fortran. */
static int read_dimensions(Dwarf_Die *array, u64 *counts, Dwarf_Sword *firsts) {
    int found = 0;
    Dwarf_Die e, unit;
    Dwarf_Sword usual = 0;
    if (dwarf_diecu(array, &unit, 0, 0)) dwarf_default_lower_bound(dwarf_srclang(&unit), &usual);
    EACH_CHILD(&e, array) {
        Dwarf_Attribute a;
        u64 last;
        if (found == MOST_DIMENSIONS || dwarf_tag(&e) != DW_TAG_subrange_type) break;
        if (dwarf_formsdata(dwarf_attr(&e, DW_AT_lower_bound, &a), &firsts[found])) firsts[found] = usual;
        if (!has_number(&e, DW_AT_count, &counts[found]))
            counts[found] = has_number(&e, DW_AT_upper_bound, &last) ? last + 1 - firsts[found] : 0;
        found++;
    }
    return found;
}

u64 size_of_type(Dwarf_Die *type) {
    u64 size = 1, own, counts[MOST_DIMENSIONS];
    Dwarf_Sword firsts[MOST_DIMENSIONS];
    Dwarf_Die e = *type;
    int is_known = plain_type(&e);
    for (int steps = 0; is_known && dwarf_tag(&e) == DW_TAG_array_type && steps < MOST_STEPS; steps++) {
        for (int k = read_dimensions(&e, counts, firsts); k-- > 0;) size *= counts[k];
        is_known = type_of(&e, &e);
    }
    return is_known && !dwarf_aggregate_size(&e, &own) ? size * own : 0;
}

/* Names of the C and C++ library's own members say little: they are told only of what isn't at the begin of
   a variable. */
static int is_reserved(const char *name) {
    return *name == '_' && (name[1] == '_' || (name[1] >= 'A' && name[1] <= 'Z'));
}

static int has_one_member(Dwarf_Die *of) {
    Dwarf_Die e;
    int found = 0;
    u64 place;
    EACH_CHILD(&e, of)
        found += place_of_member(&e, &place);
    return found == 1;
}

int is_structure(Dwarf_Die *type) {
    return dwarf_tag(type) == DW_TAG_structure_type || dwarf_tag(type) == DW_TAG_class_type;
}

/* A number, or in DWARF 2 what is added to where the whole begins. */
int place_of_member(Dwarf_Die *member, u64 *place) {
    Dwarf_Attribute a;
    Dwarf_Op *operations;
    size_t count;
    int tag = dwarf_tag(member);
    if (tag != DW_TAG_member && tag != DW_TAG_inheritance) return 0;
    if (has_number(member, DW_AT_data_member_location, place)) return 1;
    if (dwarf_getlocation(dwarf_attr(member, DW_AT_data_member_location, &a), &operations, &count)
        || count != 1 || operations->atom != DW_OP_plus_uconst) return 0;
    *place = operations->number;
    return 1;
}

int member_with(Dwarf_Die *of, u64 offset, u64 length, Dwarf_Die *member, u64 *place) {
    EACH_CHILD(member, of) {
        Dwarf_Die type;
        if (!place_of_member(member, place) || dwarf_hasattr(member, DW_AT_bit_size)
            || !type_of(member, &type)) continue;
        u64 size = size_of_type(&type);
        if (offset >= *place && length <= size && offset - *place <= size - length) return 1;
    }
    return 0;
}

int place_of_bits(Dwarf_Die *member, u64 *place, u64 *length) {
    u64 size, whole, above;
    if (dwarf_tag(member) != DW_TAG_member || !has_number(member, DW_AT_bit_size, &size)) return 0;
    if (!has_number(member, DW_AT_data_bit_offset, place)) {
        /* before DWARF 5: how many bits of its unit are above it */
        if (!place_of_member(member, place) || !has_number(member, DW_AT_bit_offset, &above)
            || !has_number(member, DW_AT_byte_size, &whole)) return 0;
        *place = 8 * *place + 8 * whole - above - size;
    }
    *length = size;
    return 1;
}

void add_name(text *to, const char *before, const char *name, u64 rest) {
    int count = snprintf(to->at, to->room, "%s%.200s", before, name);
    cleaned(to->at);
    count = (size_t)count < to->room ? count : (int)to->room - 1;
    to->at += count;
    to->room -= count;
    to->rest = rest;
}

/* Adds the indices of the element of an array that has all of these bytes, where there is one; else those of
   its row. Of several in Fortran the first is the innermost: these aren't told. */
static int add_indices(Dwarf_Die *array, Dwarf_Die *of, u64 *offset, u64 length, text *to) {
    u64 counts[MOST_DIMENSIONS], stride = size_of_type(of), strides[MOST_DIMENSIONS];
    Dwarf_Sword firsts[MOST_DIMENSIONS];
    int dimensions = read_dimensions(array, counts, firsts);
    if (dimensions > 1 && dwarf_arrayorder(array) == DW_ORD_col_major) return 0;
    for (int k = dimensions; k-- > 0; stride *= counts[k]) strides[k] = stride;
    for (int k = 0; k < dimensions; k++) {
        char index[24];
        if (!strides[k] || *offset % strides[k] + length > strides[k]) return 0;
        snprintf(index, sizeof index, "[%ld]", (long)(*offset / strides[k]) + firsts[k]);
        *offset %= strides[k];
        add_name(to, "", index, *offset);
    }
    return dimensions > 0;
}

/* Adds the bit fields that have some of these bytes, ".busy/ready", if no other member has one of them. */
static void add_bits(Dwarf_Die *of, u64 offset, u64 length, text *to) {
    const text before = *to;
    u64 place, size, found = 0;
    Dwarf_Die member, type;
    EACH_CHILD(&member, of) {
        const char *name = dwarf_diename(&member);
        int is_bits = place_of_bits(&member, &place, &size);
        if (!is_bits && place_of_member(&member, &place) && type_of(&member, &type)) {
            place *= 8;
            size = 8 * size_of_type(&type);
        } else if (!is_bits) continue;
        if (place >= 8 * (offset + length) || place + size <= 8 * offset) continue;
        if (is_bits && name) add_name(to, found++ ? "/" : ".", name, 0);
        else if (!is_bits) found = -1ull;
        if (found != -1ull) continue;
        *to = before;
        *to->at = 0;
        return;
    }
}

/* Of a union without a name in a class of the library's; null of another one. */
static const char *first_own_name(Dwarf_Die *of) {
    Dwarf_Die e;
    const char *name = dwarf_child(of, &e) ? 0 : dwarf_diename(&e);
    return name && dwarf_tag(of) == DW_TAG_union_type && is_reserved(name) ? name : 0;
}

static int is_other(Dwarf_Die *type) {
    u64 encoding;
    int tag = dwarf_tag(type);
    if (tag != DW_TAG_base_type) return tag != DW_TAG_pointer_type && tag != DW_TAG_enumeration_type;
    return has_number(type, DW_AT_encoding, &encoding)
        && (encoding == DW_ATE_float || encoding == DW_ATE_complex_float || encoding == DW_ATE_decimal_float);
}

void add_rest(text *to) { if (to->rest) snprintf(to->at, to->room, "+%lu", to->rest); }

void add_members(Dwarf_Die type, u64 offset, u64 length, text *to) {
    for (int steps = 0; steps < MOST_STEPS && plain_type(&type); steps++) {
        Dwarf_Die member;
        u64 place;
        to->is_other = dwarf_tag(&type) != DW_TAG_array_type && is_other(&type);
        if (dwarf_tag(&type) == DW_TAG_array_type) {
            Dwarf_Die element;
            if (!type_of(&type, &element) || !add_indices(&type, &element, &offset, length, to)) return;
            type = element;
            continue;
        }
        if (!is_structure(&type)) return;
        if (!member_with(&type, offset, length, &member, &place)) {
            add_bits(&type, offset, length, to);
            return;
        }
        const char *name = dwarf_diename(&member);
        int is_own = name && is_reserved(name), is_wrapped = is_own && has_one_member(&type);
        if (is_own && !to->rest) return;
        offset -= place;
        if (!type_of(&member, &type)) return;
        if (!name) name = first_own_name(&type);
        if (name && *name && !is_wrapped) add_name(to, ".", name, offset);
    }
}

int add_member(debug *d, u64 address, u64 offset, u64 length, char *buffer, size_t size) {
    text to = {buffer, size, offset, 0};
    Dwarf_Die *variable = variable_at(d, address), type;
    if (variable && !d->is_alien && type_of(variable, &type)) add_members(type, offset, length, &to);
    add_rest(&to);
    return to.is_other;
}

/* ---- locals ---- */
/* What is looked for, and the one that was found; of several none is certain. */
typedef struct {
    place_of_local at;                 /* its address as the debug information has it */
    Dwarf_Die function;
    int found;
    Dwarf_Die type;
    u64 offset;
    const char *name, *inlined;
    const void *last;                  /* entry that was met */
} search;

enum { FRAME_POINTER = 6, STACK_POINTER = 7 };

/* The only operation of a location at the place in the code; 0 where it isn't a plain one. */
static int plain_location(const search *s, Dwarf_Die *die, unsigned attribute, Dwarf_Op *found) {
    Dwarf_Attribute a;
    Dwarf_Op *operations;
    size_t count;
    if (dwarf_getlocation_addr(dwarf_attr(die, attribute, &a), s->at.pc, &operations, &count, 1) != 1
        || count != 1) return 0;
    *found = *operations;
    return 1;
}

/* How far after the begin of a variable the place that is looked for lies; -1 if that isn't told. */
static u64 offset_in(search *s, Dwarf_Die *variable) {
    enum { SAVED = 16 };               /* the return address, and the frame pointer that points there */
    Dwarf_Op at, base;
    if (!plain_location(s, variable, DW_AT_location, &at)) return -1ull;
    if (at.atom == DW_OP_breg0 + STACK_POINTER) return s->at.above - at.number;
    if (at.atom != DW_OP_fbreg || !plain_location(s, &s->function, DW_AT_frame_base, &base)) return -1ull;
    if (base.atom == DW_OP_call_frame_cfa) return -s->at.below - at.number;
    if (base.atom == DW_OP_reg0 + FRAME_POINTER) return SAVED - s->at.below - at.number;
    return base.atom == DW_OP_reg0 + STACK_POINTER ? s->at.above - at.number : -1ull;
}

static void look_at(search *s, Dwarf_Die *variable, const char *inlined) {
    Dwarf_Die type;
    u64 offset = offset_in(s, variable), size = offset != -1ull
        && type_of(variable, &type) ? size_of_type(&type) : 0;
    if (offset >= size || s->at.length > size - offset) return;
    s->found++;
    s->type = type;
    s->offset = offset;
    s->name = dwarf_diename(variable);
    s->inlined = inlined;
}

static void look_in(search *s, Dwarf_Die *scope, const char *inlined, int depth) {
    Dwarf_Die e;
    for (int more = first_entry(scope, &e, &s->last); more; more = next_entry(&e, &s->last)) {
        int tag = dwarf_tag(&e);
        if (tag == DW_TAG_variable || tag == DW_TAG_formal_parameter) look_at(s, &e, inlined);
        if ((tag != DW_TAG_lexical_block && tag != DW_TAG_inlined_subroutine) || depth >= MOST_STEPS
            || dwarf_haspc(&e, s->at.pc) <= 0) continue;
        const char *name = tag == DW_TAG_inlined_subroutine ? dwarf_diename(&e) : inlined;
        look_in(s, &e, name ? name : "", depth + 1);
    }
}

const char *add_local(debug *d, place_of_local at, char *buffer, size_t size) {
    search s = {.at = at};
    if (!find_function(d, at.pc, &s.function)) return 0;
    s.at.pc -= d->bias;
    look_in(&s, &s.function, "", 0);
    if (s.found != 1 || !s.name || !*s.name) return 0;
    text to = {buffer, size, s.offset, 0};
    add_name(&to, "", s.name, s.offset);
    add_members(s.type, s.offset, at.length, &to);
    add_rest(&to);
    return s.inlined;
}
