/* A module's symbols, and what their names are in the program's source. */
#include "debug.h"
#include <dlfcn.h>

/* A copy, also of a name that isn't mangled; it is so where the C++ library isn't on the machine. */
char *demangled(const char *name) {
    typedef char *demangle(const char *name, char *buffer, size_t *length, int *status);
    static demangle *of_library;
    static int is_asked;
    int status, is_mangled = starts_with(name, "_Z");
    if (is_mangled && !is_asked++) {
        void *library = dlopen("libstdc++.so.6", RTLD_NOW);
        of_library = library ? (demangle *)dlsym(library, "__cxa_demangle") : 0;
    }
    char *text = is_mangled && of_library ? of_library(name, 0, 0, &status) : 0;
    return text ? text : copied(name);
}

/* Rust's two forms, "_R.." and "_ZN..17h" with 16 digits and "E"; "__m_MOD_x" of Fortran; "_D1m1x.." of D;
   gcc's "_Z1xB5cxx11". */
int is_of_other(const char *linked) {
    enum { HASH = 20 };
    size_t length = strlen(linked);
    int is_older = length > HASH && starts_with(linked, "_ZN") && starts_with(linked + length - HASH, "17h");
    int is_of_d = starts_with(linked, "_D") && isdigit((unsigned char)linked[2]);
    return is_older || is_of_d || starts_with(linked, "_R") || strstr(linked, "_MOD_")
        || strstr(linked, "B5cxx11");
}

/* As gcc links "last" of a function in C: "last.0". */
static int is_static_local(const char *linked) {
    const char *dot = strrchr(linked, '.');
    return dot && isdigit((unsigned char)dot[1]);
}

char *told_name(const Dwarf_Die *of) {
    char name[NAME_BYTES];
    text to = {name, sizeof name, 0, 0};
    return add_qualified_name(of, &to) ? copied(name) : 0;
}

static void take_symbol(debug *d, int number) {
    GElf_Sym s;
    GElf_Addr at;
    GElf_Word section;
    const char *name = dwfl_module_getsym_info(d->file, number, &s, &at, &section, 0, 0);
    int type = GELF_ST_TYPE(s.st_info), is_function = type == STT_FUNC || type == STT_GNU_IFUNC;
    if (!name || !*name || !s.st_size || s.st_size > ~0ull >> SYMBOL_FLAGS || section == SHN_UNDEF
        || section == SHN_ABS || section == SHN_COMMON) return;
    if (!is_function && type != STT_OBJECT && type != STT_NOTYPE) return;
    *PUSH(d->symbols) = (symbol){s.st_value, s.st_size, name, 0, 0, is_function};
}

/* of several at one address, the last by its name is found */
static int by_address(const void *a, const void *b) {
    const symbol *x = a, *y = b;
    return x->at < y->at ? -1 : x->at > y->at ? 1 : strcmp(x->linked, y->linked);
}

static void read_symbols(debug *d) {
    if (d->has_symbols++) return;
    int count = d->file ? dwfl_module_getsymtab(d->file) : 0;
    for (int k = 1; k < count; k++) take_symbol(d, k);
    SORT(d->symbols, by_address);
    /* at what is of two the second is found, so the first ends there */
    for (u64 k = 1; k < d->symbols.count; k++) {
        symbol *before = &d->symbols.at[k - 1];
        u64 most = before[1].at - before->at;
        if (most && before->size > most) before->size = most;
    }
}

static const char *name_of(debug *d, symbol *s) {
    int is_told = !s->name && !s->is_function && (is_of_other(s->linked) || is_static_local(s->linked));
    const Dwarf_Die *variable = is_told ? variable_at(d, s->at) : 0;
    if (variable) s->name = told_name(variable);
    return s->name ? s->name : (s->name = demangled(s->linked));
}

/* Names the variables, and marks those of one name, static in several files. */
static void name_variables(debug *d) {
    if (d->has_names++) return;
    symbol **first = zeroed(d->symbols.count + 1, sizeof *first);
    EACH(s, d->symbols) {
        if (s->is_function) continue;
        symbol **known = &first[map_text(&d->names, name_of(d, s)) - 1];
        if (!*known) *known = s;
        else s->is_twice = (*known)->is_twice = 1;
    }
    free(first);
}

const symbol *symbol_from(debug *d, u64 address) {
    read_symbols(d);
    symbol *all = d->symbols.at;
    u64 count = d->symbols.count, next = COUNT_BEFORE(k, count, all[k].at <= address);
    int is_there = next && address - all[next - 1].at < all[next - 1].size;
    if (!is_there && next == count) return 0;
    symbol *s = &all[is_there ? next - 1 : COUNT_BEFORE(k, count, all[k].at <= all[next].at) - 1];
    name_of(d, s);
    if (!s->is_function) name_variables(d);
    return s;
}

int is_variable(debug *d, const char *name) {
    read_symbols(d);
    name_variables(d);
    return map_find_bytes(&d->names, name, strlen(name)) != 0;
}
