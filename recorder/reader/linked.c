/* What shb-record asks of a module: of what kind it is, or what it exports and calls. Each row is two texts,
   what is told and a name; a byte 0 ends each, so a name may have any other. */
#include "debug.h"

static void tell(const char *what, const char *name) { printf("%s%c%s%c", what, 0, name, 0); }

/* What is in the next section of a type; null where there is no more. */
static Elf_Data *next_of(Elf *elf, GElf_Word type, Elf_Scn **section, GElf_Shdr *header) {
    while ((*section = elf_nextscn(elf, *section)))
        if (gelf_getshdr(*section, header) && header->sh_type == type) return elf_getdata(*section, 0);
    return 0;
}

/* Tells symbols of a table as `what`, unless that is null: of .symtab the source files, of .dynsym what the
   module exports. Returns whether it calls hooks, which a library of hooks has. What gcc adds to a program
   that is linked with them calls the first one; its own code may have been compiled without. */
static int tell_symbols(Elf *elf, GElf_Word table, const char *what) {
    int has_hooks = 0, is_program = has_section(elf, ".interp");
    Elf_Scn *section = 0;
    GElf_Shdr header;
    GElf_Sym s;
    Elf_Data *data = next_of(elf, table, &section, &header);
    for (int k = 0; gelf_getsym(data, k, &s); k++) {
        int is_here = s.st_shndx != SHN_UNDEF, is_file = GELF_ST_TYPE(s.st_info) == STT_FILE;
        const char *name = elf_strptr(elf, header.sh_link, s.st_name);
        if (!name || !*name) continue;
        if (what && (table == SHT_SYMTAB ? is_file : is_here)) tell(what, name);
        has_hooks |= !is_here && starts_with(name, "__tsan_") && (!is_program || strcmp(name, "__tsan_init"));
    }
    return has_hooks;
}

static void tell_libraries(Elf *elf) {
    Elf_Scn *section = 0;
    GElf_Shdr header;
    GElf_Dyn entry;
    Elf_Data *data = next_of(elf, SHT_DYNAMIC, &section, &header);
    for (int k = 0; gelf_getdyn(data, k, &entry); k++) {
        const char *name = entry.d_tag == DT_NEEDED ? elf_strptr(elf, header.sh_link, entry.d_un.d_val) : 0;
        if (name) tell("library", basename(name));
    }
}

/* Do gcc's flags ask for hooks? The last one of them says. */
static int asks_for_hooks(const char *flags) {
    static const char flag[] = "sanitize=";
    int asks = 0;
    for (const char *at = flags; (at = strstr(at, flag)); at += strlen(flag)) {
        size_t length = strcspn(at, " ");
        int is_of_threads = memmem(at, length, "thread", 6) || memmem(at, length, "all", 3);
        if (is_of_threads) asks = strncmp(at - 3, "no-", 3) != 0;
    }
    return asks;
}

static int has_any(const char *text, const char *const *parts) {
    while (*parts && !strstr(text, *parts)) parts++;
    return *parts != 0;
}

/* Tells which source files gcc compiled with hooks and which without: it writes its flags behind its name.
   Others' aren't known, and gcc's own parts of a program aren't told. */
static void tell_compiled(debug *d) {
    static const char *const others[] = {"GNU AS", "GNU GIMPLE", 0};
    static const char *const own[] = {"libsanitizer/", "libgcc/", 0};
    read_units(d);
    EACH(u, d->units) {
        Dwarf_Attribute a;
        const char *by = dwarf_formstring(dwarf_attr(&u->whole, DW_AT_producer, &a));
        const char *name = dwarf_formstring(dwarf_attr(&u->whole, DW_AT_name, &a));
        int has_flags = by && starts_with(by, "GNU ") && strstr(by, " -m") && !has_any(by, others);
        if (has_flags && name && !has_any(name, own))
            tell(asks_for_hooks(by) ? "compiled with hooks" : "compiled without hooks", basename(name));
    }
}

void tell_kind(debug *d) {
    static const char rust[] = "/rustc/";      /* the folder that its library's sources are said to be in */
    Elf *elf = own_file(d);
    size_t size = 0;
    const char *content = elf ? elf_rawfile(elf, &size) : 0;
    if (!content) return;
    int has_hooks = tell_symbols(elf, SHT_DYNSYM, 0);
    tell(has_hooks ? "hooked" : "bare", "");
    if (has_hooks && !has_section(elf, ".debug_info") && !has_section(elf, ".gnu_debuglink"))
        tell("nameless", "");
    if (has_hooks) tell_compiled(d);
    if (has_hooks && memmem(content, size, rust, strlen(rust))) tell("rust", "");
    if (has_section(elf, ".interp")) tell("program", "");
    tell_libraries(elf);
    tell_symbols(elf, SHT_SYMTAB, "file");
}

/* ---- calls ---- */
/* The code, and its address; by the slots that the loader puts addresses of other modules' functions in,
   their names; what was told. */
typedef struct { const char *bytes; u64 size, at; INTERNED(const char *) slots; map told; } code_of_calls;

static void read_code(code_of_calls *c, Elf *elf) {
    size_t count = 0;
    GElf_Phdr h;
    elf_getphdrnum(elf, &count);
    for (size_t k = 0; k < count && !c->size; k++) {
        int is_code = gelf_getphdr(elf, k, &h) && h.p_type == PT_LOAD && h.p_flags & PF_X;
        const Elf_Data *data = is_code ? elf_getdata_rawchunk(elf, h.p_offset, h.p_filesz, ELF_T_BYTE) : 0;
        if (data) *c = (code_of_calls){.bytes = data->d_buf, .size = data->d_size, .at = h.p_vaddr};
    }
}

static void read_slots(code_of_calls *c, Elf *elf) {
    Elf_Scn *table = 0, *section = 0;
    GElf_Shdr of_symbols, header;
    GElf_Rela r;
    GElf_Sym s;
    Elf_Data *symbols = next_of(elf, SHT_DYNSYM, &table, &of_symbols), *slots;
    while ((slots = next_of(elf, SHT_RELA, &section, &header)))
        for (int k = 0; gelf_getrela(slots, k, &r); k++) {
            int type = GELF_R_TYPE(r.r_info);
            const char *name = (type == R_X86_64_GLOB_DAT || type == R_X86_64_JUMP_SLOT)
                && gelf_getsym(symbols, GELF_R_SYM(r.r_info), &s)
                ? elf_strptr(elf, of_symbols.sh_link, s.st_name) : 0;
            if (name) *ENTRY(c->slots, r.r_offset, 0) = name;
        }
}

/* Where an instruction of so many bytes goes, whose last four say how far behind its end. */
static u64 target_of(const code_of_calls *c, u64 place, u64 bytes) {
    int32_t offset;
    memcpy(&offset, c->bytes + place + bytes - sizeof offset, sizeof offset);
    return c->at + place + bytes + offset;
}

/* The slot that a call or jump goes by; 0 of other code. */
static u64 slot_in(const code_of_calls *c, u64 place) {
    enum { BYTES = 6 };
    if (place >= c->size || c->size - place < BYTES) return 0;
    int is_by_slot = !memcmp(c->bytes + place, "\xff\x15", 2) || !memcmp(c->bytes + place, "\xff\x25", 2);
    return is_by_slot ? target_of(c, place, BYTES) : 0;
}

/* The slot that the stub at an address jumps by, perhaps behind endbr64 and a prefix. */
static u64 slot_of_stub(const code_of_calls *c, u64 at) {
    static const int before[] = {0, 4, 5};
    u64 slot = 0;
    for (int k = 0; k < 3 && !slot; k++) slot = slot_in(c, at - c->at + before[k]);
    return slot;
}

/* The function's name is as a stack has it, without what a compiler adds for a part. */
static void tell_call(debug *d, code_of_calls *c, u64 at, u64 slot) {
    u32 number = map_find(&c->slots.numbers, slot, 0);
    const symbol *s = number ? symbol_from(d, at) : 0;
    if (!s || s->at > at || !s->is_function || !map_adds(&c->told, s->at, number)) return;
    char *whole = copied(s->linked), *name;
    whole[strcspn(whole, ".")] = 0;
    name = demangled(whole);
    tell("caller", name);
    tell("called", c->slots.at[number - 1]);
    free(whole);
    free(name);
}

void tell_calls(debug *d) {
    enum { BYTES = 5 };
    code_of_calls c = {0};
    Elf *elf = own_file(d);
    if (!tell_symbols(elf, SHT_DYNSYM, "export")) return;
    read_code(&c, elf);
    read_slots(&c, elf);
    for (u64 place = 0; place + BYTES <= c.size; place++) {
        int is_direct = c.bytes[place] == '\xe8' || c.bytes[place] == '\xe9';
        u64 slot = is_direct ? slot_of_stub(&c, target_of(&c, place, BYTES)) : slot_in(&c, place);
        if (slot) tell_call(d, &c, c.at + place, slot);
    }
}
