/* Modules, as libdw reads them: the code of their functions, lines, and what is inlined. */
#include "debug.h"
#include <elfutils/libdwelf.h>
#include <unistd.h>

/* ---- what isn't read ---- */
static Elf_Scn *section_of(Elf *elf, const char *name) {
    size_t names;
    if (elf_getshdrstrndx(elf, &names)) return 0;
    for (Elf_Scn *s = 0; (s = elf_nextscn(elf, s));) {
        GElf_Shdr header;
        const char *found = gelf_getshdr(s, &header)
            && header.sh_type != SHT_NOBITS ? elf_strptr(elf, names, header.sh_name) : 0;
        if (found && (!strcmp(found, name) || (starts_with(found, ".z") && !strcmp(found + 2, name + 1))))
            return s;
    }
    return 0;
}

int has_section(Elf *elf, const char *name) { return section_of(elf, name) != 0; }

Elf *own_file(debug *d) {
    GElf_Addr bias;
    return d->file ? dwfl_module_getelf(d->file, &bias) : 0;
}

/* What units have, in namespaces too: functions with code, and with types. */
typedef struct { int has_code, has_types; } functions;
static int note_functions(void *to, Dwarf_Die *e) {
    functions *f = to;
    if (f->has_code && f->has_types) return STOP;
    if (dwarf_tag(e) != DW_TAG_subprogram) return dwarf_tag(e) == DW_TAG_namespace ? GO_IN : GO_ON;
    f->has_code |= dwarf_hasattr(e, DW_AT_high_pc) || dwarf_hasattr(e, DW_AT_ranges);
    f->has_types |= dwarf_hasattr(e, DW_AT_type);
    return GO_ON;
}

/* Does the entry name a type in a unit of its own that the library doesn't find? */
static int lacks_type(Dwarf_Die *e, unsigned attribute) {
    Dwarf_Die to;
    Dwarf_Attribute a;
    return dwarf_whatform(dwarf_attr(e, attribute, &a)) == DW_FORM_ref_sig8 && !dwarf_formref_die(&a, &to);
}

/* As 0.188 in split files. */
static int lacks_types(debug *d) {
    EACH(u, d->units) {
        Dwarf_Die e;
        if (u->whole.addr == u->linked.addr) continue;
        EACH_CHILD(&e, &u->whole)
            if (lacks_type(&e, DW_AT_signature) || lacks_type(&e, DW_AT_type)) return 1;
    }
    return 0;
}

static int has_package(debug *d) {
    char path[MOST_TEXT];
    snprintf(path, sizeof path, "%s.dwp", d->path);
    return !access(path, F_OK);
}

static const char no_debug_information[] = "isn't there (no -g); lines are addresses too: compile with -g";

/* Why a part of the debug information is missing: that of a file that has some, and of all that it names. */
static const char *why_in_part(debug *d) {
    Elf *elf = dwarf_getelf(d->dwarf);
    int has_shared = dwarf_getalt(d->dwarf) != 0;
    functions f = {0};
    EACH(u, d->units) each_entry(&u->whole, note_functions, &f);
    if (!has_shared && has_section(elf, ".debug_sup"))
        return "is in part in a file that this version of libdw doesn't read (dwz --dwarf-5)";
    if (d->is_alien || (!has_shared && has_section(elf, ".gnu_debugaltlink")))
        return "is in part in a file that isn't there, or not of this build (dwz -m)";
    if (d->is_in_objects)
        return "is in object files that this version of libdw doesn't read (-gsplit-dwarf=single)";
    if (d->lacks_split && has_package(d))
        return "is in a package that this version of libdw doesn't read (.dwp)";
    if (d->lacks_split)
        return "is in other files that aren't there, not of this build, or of a form that this version of "
               "libdw doesn't read (-gsplit-dwarf)";
    if (lacks_types(d))
        return "has types that this version of libdw doesn't read (-gsplit-dwarf -fdebug-types-section)";
    return !f.has_code ? no_debug_information : f.has_types ? 0 : "has no types (-g1)";
}

const char *why_unread(debug *d) {
    Elf *elf = own_file(d);
    read_units(d);
    if (!elf) return 0;
    if (has_section(elf, ".debug_info") && !d->units.count)
        return "can't be read: it is too large, damaged, or compressed in a form that isn't known (-gz)";
    if (!d->dwarf)
        return has_section(elf, ".gnu_debuglink") ? "is in a file that isn't there (.gnu_debuglink)"
            : no_debug_information;
    return why_in_part(d);
}

/* The library finds what several files have in common by its name alone. */
static int is_of_other_build(Dwarf *dwarf) {
    const char *name;
    const void *wanted, *found;
    Dwarf *shared = dwarf_getalt(dwarf);
    ssize_t length = shared ? dwelf_dwarf_gnu_debugaltlink(dwarf, &name, &wanted) : 0;
    return shared
        && (length <= 0 || dwelf_elf_gnu_build_id(dwarf_getelf(shared), &found) != length
            || memcmp(wanted, found, length));
}

/* ---- modules ---- */
debug *open_debug(const char *path) {
    static char *folders;              /* as the debuggers' */
    static const Dwfl_Callbacks callbacks = {.find_elf = dwfl_build_id_find_elf,
                                             .find_debuginfo = dwfl_standard_find_debuginfo,
                                             .debuginfo_path = &folders};
    debug *d = zeroed(1, sizeof *d);
    d->path = path;
    int f = strchr(path, '/') ? open(path, O_RDONLY) : -1;
    if (f < 0) return d;
    d->session = dwfl_begin(&callbacks);
    if (!d->session) die("out of memory");
    dwfl_report_begin(d->session);
    d->file = dwfl_report_elf(d->session, path, path, f, 0, 1);           /* it closes the file */
    dwfl_report_end(d->session, 0, 0);
    if (!d->file) close(f);
    return d;
}

/* The next code of an entry, but what the linker left out. 0: there is no more. */
static int next_code(Dwarf_Die *die, ptrdiff_t *at, u64 *low, u64 *high) {
    Dwarf_Addr base;
    do *at = dwarf_ranges(die, *at, &base, low, high);
    while (*at > 0 && (!*low || *low >= *high));
    return *at > 0;
}

static int is_behind(const Dwarf_Die *e, const void **last) {
    if ((const char *)e->addr <= (const char *)*last) return 0;
    *last = e->addr;
    return 1;
}

int first_entry(Dwarf_Die *in, Dwarf_Die *e, const void **last) {
    return !dwarf_child(in, e) && is_behind(e, last);
}
int next_entry(Dwarf_Die *e, const void **last) { return !dwarf_siblingof(e, e) && is_behind(e, last); }

static int each_inside(Dwarf_Die *in, take_entry take, void *to, const void **last, int depth) {
    Dwarf_Die e;
    for (int more = depth <= MOST_STEPS && first_entry(in, &e, last); more; more = next_entry(&e, last)) {
        int what = take(to, &e);
        if (what == GO_IN) what = each_inside(&e, take, to, last, depth + 1);
        if (what == STOP) return STOP;
    }
    return GO_ON;
}

void each_entry(Dwarf_Die *in, take_entry take, void *to) {
    const void *last = 0;
    each_inside(in, take, to, &last, 0);
}

/* As functions in a lambda's type. */
int may_have_types(int tag) {
    return tag == DW_TAG_subprogram || tag == DW_TAG_namespace || tag == DW_TAG_structure_type
        || tag == DW_TAG_class_type
        || tag == DW_TAG_union_type || tag == DW_TAG_lexical_block || tag == DW_TAG_module;
}

static int note_function(void *to, Dwarf_Die *e) {
    unit *u = to;
    u64 low, high;
    ptrdiff_t at = 0;
    if (dwarf_tag(e) == DW_TAG_subprogram)
        while (next_code(e, &at, &low, &high)) *PUSH(u->functions) = (code){low, high, *e};
    return may_have_types(dwarf_tag(e)) ? GO_IN : GO_ON;
}

static void index_functions(unit *u) {
    if (u->is_indexed++) return;
    each_entry(&u->whole, note_function, u);
    SORT(u->functions, by_number);
}

/* Does a unit whose split file isn't found name an object file for it? */
static int is_in_object(Dwarf_Die *unit) {
    Dwarf_Attribute a;
    int has_name = dwarf_attr(unit, DW_AT_dwo_name, &a) || dwarf_attr(unit, DW_AT_GNU_dwo_name, &a);
    const char *name = has_name ? dwarf_formstring(&a) : 0;
    return name && strlen(name) > 2 && !strcmp(name + strlen(name) - 2, ".o");
}

/* The debug information of a system's library may be large, and mostly isn't asked for. */
void read_units(debug *d) {
    if (d->has_units++) return;
    d->dwarf = d->file ? dwfl_module_getdwarf(d->file, &d->bias) : 0;
    if (!d->dwarf) return;
    d->is_alien = is_of_other_build(d->dwarf);
    uint8_t kind;
    Dwarf_Half version;
    Dwarf_Die die, split;
    for (Dwarf_CU *cu = 0; !dwarf_get_units(d->dwarf, cu, &cu, &version, &kind, &die, &split);) {
        if (kind != DW_UT_compile && kind != DW_UT_skeleton) continue;
        int is_lacking = kind == DW_UT_skeleton && !split.addr;
        d->lacks_split |= is_lacking;
        d->is_in_objects |= is_lacking && is_in_object(&die);
        u64 before = d->spans.count, number = d->units.count, low, high;
        *PUSH(d->units) = (unit){.linked = die, .whole = split.addr ? split : die};
        ptrdiff_t at = 0;
        while (next_code(&die, &at, &low, &high)) *PUSH(d->spans) = (span){low, high, number};
        if (d->spans.count > before) continue;
        unit *u = &d->units.at[number];          /* it doesn't tell where its code is */
        index_functions(u);
        EACH(f, u->functions) *PUSH(d->spans) = (span){f->low, f->high, number};
    }
    SORT(d->spans, by_number);
}

static unit *unit_with(debug *d, u64 pc) {
    read_units(d);
    u64 at = pc - d->bias, begun = COUNT_BEFORE(k, d->spans.count, d->spans.at[k].low <= at);
    return begun && at < d->spans.at[begun - 1].high ? &d->units.at[d->spans.at[begun - 1].unit] : 0;
}

static unit *find_code(debug *d, u64 pc, Dwarf_Die *function) {
    unit *u = unit_with(d, pc);
    *function = (Dwarf_Die){0};
    if (!u) return 0;
    index_functions(u);
    u64 at = pc - d->bias, begun = COUNT_BEFORE(k, u->functions.count, u->functions.at[k].low <= at);
    if (begun && at < u->functions.at[begun - 1].high) *function = u->functions.at[begun - 1].at;
    return u;
}

int find_function(debug *d, u64 pc, Dwarf_Die *function) {
    return find_code(d, pc, function) && !d->is_alien && function->addr;
}

int find_unit(debug *d, u64 pc, Dwarf_Die *whole) {
    const unit *u = unit_with(d, pc);
    if (!u || d->is_alien) return 0;
    *whole = u->whole;
    return 1;
}

/* A function, and what is inlined in it at a place in the code, the outermost first; addresses are as the
   debug information has them. */
static int scopes_at(Dwarf_Die function, u64 at, Dwarf_Die *scopes, int most) {
    Dwarf_Die scope = function, e;
    int count = 0;
    scopes[count++] = function;
    for (int steps = 0; steps < MOST_STEPS; steps++) {
        int is_found = 0, tag;
        EACH_CHILD(&e, &scope) {
            tag = dwarf_tag(&e);
            is_found = (tag == DW_TAG_lexical_block || tag == DW_TAG_inlined_subroutine)
                && dwarf_haspc(&e, at) > 0;
            if (is_found) break;
        }
        if (!is_found) break;
        if (tag == DW_TAG_inlined_subroutine && count < most) scopes[count++] = e;
        scope = e;
    }
    return count;
}

int find_innermost(debug *d, u64 pc, Dwarf_Die *function) {
    Dwarf_Die scopes[MOST_STEPS];
    if (!find_function(d, pc, function)) return 0;
    *function = scopes[scopes_at(*function, pc - d->bias, scopes, MOST_STEPS) - 1];
    return 1;
}

/* ---- lines ---- */
/* A path that is told from the folder of the compilation, whole: a copy where it isn't the same. */
static const char *whole_path(unit *u, const char *path) {
    Dwarf_Attribute a;
    char *whole;
    if (!path || *path == '/') return path;
    const char *folder = dwarf_formstring(dwarf_attr(&u->linked, DW_AT_comp_dir, &a));
    if (!folder) return path;
    if (asprintf(&whole, "%s/%s", folder, path) < 0) die("out of memory");
    return whole;
}

static char *name_of_function(Dwarf_Die *die) {
    Dwarf_Attribute a;
    const char *linked = dwarf_formstring(dwarf_attr_integrate(die, DW_AT_linkage_name, &a));
    if (!linked) linked = dwarf_formstring(dwarf_attr_integrate(die, DW_AT_MIPS_linkage_name, &a));
    const char *name = linked ? linked : dwarf_diename(die);
    char *told = linked && is_of_other(linked) ? told_name(die) : 0;
    return told ? told : name ? demangled(name) : 0;
}

int has_number(Dwarf_Die *die, unsigned attribute, u64 *number) {
    Dwarf_Attribute a;
    return !dwarf_formudata(dwarf_attr(die, attribute, &a), number);
}

static int frames_by_lines(debug *d, u64 pc, debug_frame *frames, int most) {
    Dwarf_Die function, scopes[MOST_STEPS];
    unit *u = find_code(d, pc, &function);
    u64 at = pc - d->bias;
    if (!u) return 0;
    int count = function.addr ? scopes_at(function, at, scopes, most < MOST_STEPS ? most : MOST_STEPS) : 0;
    Dwarf_Line *line = dwarf_getsrc_die(&u->linked, at);
    debug_frame f = {0};
    if (line) {
        f.path = whole_path(u, dwarf_linesrc(line, 0, 0));
        dwarf_lineno(line, &f.line);
    }
    if (!count) {
        frames[0] = f;
        return line != 0;
    }
    Dwarf_Files *files = 0;
    size_t file_count = 0;
    if (count > 1) dwarf_getsrcfiles(&u->whole, &files, &file_count);
    for (int k = count; k-- > 0;) {
        f.function = d->is_alien ? 0 : name_of_function(&scopes[k]);
        frames[count - 1 - k] = f;
        if (!k) break;
        u64 number, line_of_call;
        int is_told = has_number(&scopes[k], DW_AT_call_file, &number) && number < file_count;
        f = (debug_frame){.path = is_told ? whole_path(u, dwarf_filesrc(files, number, 0, 0)) : 0};
        if (has_number(&scopes[k], DW_AT_call_line, &line_of_call)) f.line = line_of_call;
    }
    return count;
}

int line_at(debug *d, u64 pc, const char **path, int *line, int *column) {
    unit *u = unit_with(d, pc);
    Dwarf_Line *found = u && !d->is_alien ? dwarf_getsrc_die(&u->linked, pc - d->bias) : 0;
    if (!found || dwarf_lineno(found, line) || dwarf_linecol(found, column)) return 0;
    *path = whole_path(u, dwarf_linesrc(found, 0, 0));
    return *path != 0;
}

/* The outermost function has the name that it is linked by, if that says what it is called. */
int frames_at(debug *d, u64 pc, debug_frame *frames, int most) {
    int count = frames_by_lines(d, pc, frames, most);
    const symbol *s = symbol_from(d, pc);
    if (!s || s->at > pc || (count && !s->is_function)) return count;
    if (!count) frames[count++] = (debug_frame){0};
    if (frames[count - 1].function && is_of_other(s->linked)) return count;
    free(frames[count - 1].function);
    frames[count - 1].function = s->is_function ? demangled(s->linked) : 0;
    return count;
}

/* ---- source files ---- */
/* Ends the line table there where its program begins. One that isn't as usual stays as it is. */
static void drop_program(const Elf_Data *tables, u64 at) {
    enum { LENGTH = 4, MOST = 12 };
    u32 length, header;
    uint16_t version;
    if (at > tables->d_size || tables->d_size - at < MOST) return;
    char *table = (char *)tables->d_buf + at;
    memcpy(&length, table, LENGTH);
    memcpy(&version, table + LENGTH, sizeof version);
    u64 before = version < 5 ? 6 : 8;                  /* bytes before its header's length */
    memcpy(&header, table + before, LENGTH);
    u64 left = before + header;  /* as many, behind its own length, as have the header */
    if (version < 2 || version > 5 || length == ~0u || length > tables->d_size - at - LENGTH) return;
    if (left < length) memcpy(table, &(u32){left}, LENGTH);
}

static void give_sources(unit *u, Dwarf *names, map *given, void (*give)(const char *path)) {
    Dwarf_Die named;
    Dwarf_Files *files;
    size_t count = 0;
    if (!dwarf_offdie(names, dwarf_dieoffset(&u->linked), &named)
        || dwarf_getsrcfiles(&named, &files, &count)) return;
    for (size_t n = 0; n < count && given->count < MOST_SOURCES; n++) {
        const char *told = dwarf_filesrc(files, n, 0, 0), *path = whole_path(u, told);
        u64 before = given->count;
        if (path && map_text(given, path) > before) give(path);
        if (path != told) free((char *)path);
    }
}

/* libdw 0.188 runs a unit's whole line program and sorts its lines also for who asks for its files alone
   (0.192 doesn't), and most units are asked for no line. So another handle of it reads a copy of the tables
   without programs. */
void each_source(debug *d, void (*give)(const char *path)) {
    map given = {0};                   /* most units have the same headers */
    u64 at;
    read_units(d);
    Elf *elf = dwarf_getelf(d->dwarf);
    Elf_Data *tables = elf_getdata(section_of(elf, ".debug_line"), 0);
    if (!tables || !tables->d_buf) return;
    void *whole = tables->d_buf;
    tables->d_buf = memcpy(zeroed(1, tables->d_size), whole, tables->d_size);
    EACH(u, d->units)
        if (has_number(&u->linked, DW_AT_stmt_list, &at)) drop_program(tables, at);
    Dwarf *names = dwarf_begin_elf(elf, DWARF_C_READ, 0);
    EACH(u, d->units) give_sources(u, names, &given, give);
    dwarf_end(names);
    free(tables->d_buf);
    tables->d_buf = whole;
    free(given.entries);
}
