/* The type of what a call in the program's own code allocates, by the text of its line: one `new NAME`, or
   one `sizeof(NAME)`, where a type of that name and size is in the unit. Debug information doesn't tell
   it. */
#include "debug.h"

int read_line(const char *path, int number, char *line) {
    u64 length;
    const char *begin = line_of(path, number, &length);
    if (!begin || length >= LINE_BYTES) return 0;
    memcpy(line, begin, length);
    line[length] = 0;
    char quote = 0;
    for (char *p = line; *p; p++) {
        if (!quote && p[0] == '/' && p[1] == '/') *p = 0;
        else if (quote && p[0] == '\\' && p[1]) *p++ = ' ';
        else if (quote || *p == '"' || *p == '\'') {
            int is_end = quote == *p;
            quote = is_end ? 0 : quote ? quote : *p;
            *p = ' ';
        }
    }
    return 1;
}

/* What is behind the only one of a word in a line; null where there is none, or several. */
static const char *behind_only(const char *line, const char *word) {
    const char *found = 0;
    size_t length = strlen(word);
    for (const char *at = line; (at = strstr(at, word)); at += length) {
        if ((at > line && is_of_word(at[-1])) || is_of_word(at[length])) continue;
        if (found) return 0;
        found = at + length;
    }
    return found;
}

/* The last part of a type's name "struct a::Entry" that ends before one of these. */
static int read_name(const char *at, const char *ends, char *name) {
    size_t length = 0;
    at += strspn(at, " \t(");
    if (starts_with(at, "struct ")) at += 7;
    for (; is_of_word(*at) || (at[0] == ':' && at[1] == ':'); at++) {
        if (*at != ':') name[length++] = *at;
        else length = 0, at++;
    }
    name[length] = 0;
    at += strspn(at, " \t\n");
    return length && strchr(ends, *at) != 0;
}

/* The types of a name and a size in an entry's children. */
typedef struct { const char *name; u64 size; int count; Dwarf_Die found; } search;

static int look_at(void *to, Dwarf_Die *e) {
    search *s = to;
    Dwarf_Die type = *e;
    const char *name = is_structure(e) || dwarf_tag(e) == DW_TAG_typedef ? dwarf_diename(e) : 0;
    int is_named = name && !strcmp(name, s->name);
    u64 size = is_named && plain_type(&type) && is_structure(&type) ? size_of_type(&type) : 0;
    if (size && s->size % size == 0 && (!s->count || s->found.addr != type.addr)) {
        s->count++;
        s->found = dwarf_diename(&type) ? type : *e;
    }
    return may_have_types(dwarf_tag(e)) ? GO_IN : GO_ON;
}

/* Is the function one of a template? A name in it may be that of an argument. */
static int is_of_template(const char *function) { return memchr(function, '<', strcspn(function, "(")) != 0; }

int type_by_text(debug *d, u64 pc, u64 size, Dwarf_Die *type) {
    debug_frame frames[MOST_INLINED];
    char line[LINE_BYTES], name[LINE_BYTES];
    Dwarf_Die unit;
    int count = frames_at(d, pc, frames, MOST_INLINED),
        is_told = count && frames->function && !is_of_template(frames->function);
    for (int k = 0; k < count; k++) free(frames[k].function);
    if (!is_told || !frames->path || frames->line <= 0 || strstr(frames->path, "/include/c++/")) return 0;
    if (!find_unit(d, pc, &unit) || !read_line(frames->path, frames->line, line)) return 0;
    const char *created = behind_only(line, "new"), *sized = behind_only(line, "sizeof");
    if (!created == !sized || !read_name(created ? created : sized, created ? "({;,)" : ")", name)) return 0;
    search s = {.name = name, .size = size};
    each_entry(&unit, look_at, &s);
    *type = s.found;
    return s.count == 1 && (!created || size_of_type(type) == size);
}
