/* Names of variables, functions and lines of code, by what the readers of modules tell. */
#include "readers.h"

enum { MAX_MODULES = 512 };
typedef struct { u64 at, size; char *name; int is_twice; } symbol;
typedef struct { VECTOR(symbol) symbols; int is_asked; } page_symbols;
typedef struct { char *text; int is_other; } member;         /* as is_of_other_type tells */
typedef struct {
    u64 low, high, base;
    char *path;
    int in_system, is_recorder;        /* by its path */
    reader *reader;             /* null until it is asked */
    INTERNED(page_symbols) pages;      /* of its file, those of which symbols were asked for */
    INTERNED(member) members;          /* of an address and a length in a variable */
    /* of its lines; they are asked for when they are shown; what isn't read */
    int asked, is_late, is_said;
} module;

static module modules[MAX_MODULES];
static int module_count;
/* What a caller is: its location, whether that is the program's own code, and its frames, the
   innermost first. */
typedef struct {
    u64 caller, length;
    char *text;
    inlined_frame *frames;
    u32 site;                          /* the same where the location is, once it was asked for */
    uint8_t is_own, is_unseen, does_more;        /* does_more: than to ask for memory and to free it */
} place;
typedef struct { u64 caller, function; } call_site;
static INTERNED(place) places;         /* by callers */
#define EACH_PLACE(p) EACH_OF(p, places.at, places.numbers.count)
static place nowhere;                  /* of a caller that wasn't noted */

static place *place_at(u32 number) { return number ? &places.at[number - 1] : &nowhere; }

static module *module_at(u64 address) {
    for (int i = 0; i < module_count; i++)
        if (address >= modules[i].low && address < modules[i].high) return &modules[i];
    return 0;
}

static reader *reader_of(module *m) {
    return m->reader ? m->reader : (m->reader = open_reader(m->path));
}

/* Says what isn't read of a module of the program's own, once for each. */
static void say_unread(module *m) {
    answer why;
    if (m->is_said++ || m->in_system || !ask_one(reader_of(m), ASK_UNREAD, 0, 0, &why)) return;
    fprintf(stderr, "shb-std: %s: members of variables, and locals, may have no names, for its debug "
                    "information %s\n", m->path, why.first);
}

void read_modules(char *header) {
    char *rest = 0;
    for (char *line = strtok_r(header, "\n", &rest); line
         && module_count < MAX_MODULES; line = strtok_r(0, "\n", &rest)) {
        module *m = &modules[module_count];
        int path = 0;
        if (sscanf(line, "%lx %lx %lx %n", &m->low, &m->high, &m->base, &path) < 3 || !path) continue;
        m->path = copied(line + path);
        for (char *p = m->path; *p; p++)
            if (*p == LINE_END_IN_PATH) *p = '\n';
        m->in_system = in_system(m->path);
        m->is_recorder = starts_with(basename(m->path), "libtsan.so");
        module_count++;
    }
}

/* ---- symbols ---- */
/* Those of a page, which are asked for together: in order, none over another. */
static void ask_symbols(module *m, u64 page, page_symbols *to) {
    u64 behind = 0;                    /* of the page's bytes */
    answer a;
    ask(reader_of(m), ASK_SYMBOLS, &page, 1);
    while (next_answer(m->reader, &a)) {
        u64 size = a.two >> SYMBOL_FLAGS, before = a.one < page ? page - a.one : 0,
            from = before ? 0 : a.one - page;
        if (from < behind || from >= SYMBOL_PAGE || size <= before) {
            refuse_answer(m->reader);
            return;
        }
        behind = size - before < SYMBOL_PAGE - from ? from + size - before : SYMBOL_PAGE;
        *PUSH(to->symbols) = (symbol){a.one + m->base, size, cleaned(copied(a.first)),
                                      a.two & SYMBOL_IS_TWICE};
    }
}

static symbol *symbol_at(module *m, u64 address) {
    u64 page = (address - m->base) & -(u64)SYMBOL_PAGE;
    page_symbols *p = ENTRY(m->pages, page, 0);
    if (!p->is_asked++) ask_symbols(m, page, p);
    u64 begun = COUNT_BEFORE(k, p->symbols.count, p->symbols.at[k].at - m->base <= address - m->base);
    symbol *s = begun ? &p->symbols.at[begun - 1] : 0;
    return s && address - s->at < s->size && *s->name ? s : 0;
}

int is_of_recorder(u64 caller) {
    const module *m = module_at(caller);
    return m && m->is_recorder;
}

int is_of_system(u64 caller) {
    const module *m = module_at(caller);
    return m && m->in_system && !m->is_recorder;
}

/* Where a lambda begins in a function's name that isn't in an argument of a template or a parameter;
   or null. */
static const char a_lambda[] = "{lambda(";
static char *own_lambda(char *name) {
    int depth = 0;
    for (char *p = name; *p; p++) {
        if (!depth && starts_with(p, a_lambda)) return p;
        depth += (*p == '<' || *p == '(') - (*p == '>' || *p == ')');
    }
    return 0;
}

/* A function's name without its parameters. A lambda in f(int) is "f::lambda". */
static char *shortened(char *name) {
    static const char nameless[] = "(anonymous namespace)::";
    char *at;
    while ((at = strstr(name, nameless)))
        memmove(at, at + strlen(nameless), strlen(at + strlen(nameless)) + 1);
    char *lambda = own_lambda(name);
    if (lambda) *lambda = 0;
    name[strcspn(name, "(")] = 0;
    if (lambda) {
        size_t length = strlen(name);
        int ends = length >= 2 && !strcmp(name + length - 2, "::");
        strcpy(name + length, length && !ends ? "::lambda" : "lambda");
    }
    return name;
}

/* The name, which is freed, or "". */
static const char *give_name_of(char *name, char *buffer, size_t size) {
    snprintf(buffer, size, "%s", name ? name : "");
    free(name);
    return buffer;
}

static char *short_name(const symbol *s) { return s ? shortened(copied(s->name)) : 0; }

static symbol *found_symbol(u64 address) {
    module *m = module_at(address);
    return m ? symbol_at(m, address) : 0;
}

const char *function_name(u64 address, char *buffer, size_t size) {
    return give_name_of(short_name(found_symbol(address)), buffer, size);
}

static int is_of_cxx_library(const char *name) {
    size_t length = strcspn(name, "<");
    const char *standard = strstr(name, "std::"), *extension = strstr(name, "__gnu_cxx::");
    return (standard && standard < name + length) || (extension && extension < name + length);
}

/* The first lambda of the program's own in the arguments of a template: what a function of the C++ library
   was made for. Or null. */
static char *lambda_among(const char *name) {
    for (const char *at = name; (at = strstr(at, a_lambda)); at++) {
        const char *from = at;
        for (int depth = 0; from > name; from--) {
            char before = from[-1];
            if (!depth && (before == '<' || before == '(' || before == ',')) break;
            depth += (before == '>' || before == ')') - (before == '<' || before == '(');
        }
        char *found = copied(from + strspn(from, " "));
        found[at + strlen(a_lambda) - from - strspn(from, " ")] = 0;
        if (!is_of_cxx_library(shortened(found))) return found;
        free(found);
    }
    return 0;
}

/* Rust's own tools alone can read what its compiler mangled. */
int is_of_rust(const char *name) {
    return starts_with(name, "std::sys::") || starts_with(name, "__rust_") || starts_with(name, "_R");
}

/* By its module and its name, not by what is inlined at its beginning. */
int own_function_name(u64 address, char *buffer, size_t size) {
    module *m = module_at(address);
    symbol *s = m && !m->in_system && !m->is_recorder ? symbol_at(m, address) : 0;
    char *name = short_name(s);
    if (name && (is_of_cxx_library(name) || is_of_rust(name))) {
        free(name);
        name = lambda_among(s->name);
    }
    return *give_name_of(name, buffer, size) != 0;
}

/* ---- members of variables ---- */
static u64 length_at(const symbol *s, u64 address) {
    u64 end = s->at + s->size;
    return next_cut(address, end - address < MOST_LENGTH ? end : address + MOST_LENGTH) - address;
}

static void keep_member(module *m, u64 address, u64 length, const answer *a) {
    member *kept = ENTRY(m->members, address, length);
    if (!kept->text) *kept = (member){cleaned(copied(a->first)), a->two == 1};
}

/* Asks for what is at an address of a variable, and for what is behind it: an array may have
   many elements. */
static void ask_members(module *m, const symbol *s, u64 address) {
    enum { TOGETHER = 512, MOST_KEPT = 1 << 20 };
    u64 most = m->members.numbers.count < MOST_KEPT ? TOGETHER : 1, count = 1;
    u64 numbers[1 + 2 * TOGETHER] = {s->at - m->base};
    for (u64 at = address, length = 0; count < 2 * most && at < s->at + s->size
         && length < MOST_LENGTH; at += length) {
        length = length_at(s, at);
        numbers[count++] = at - s->at;
        numbers[count++] = length;
    }
    answer a;
    ask(m->reader, ASK_MEMBER, numbers, count);
    for (u64 k = 1; next_answer(m->reader, &a); k += 2) {
        if (k < count) keep_member(m, s->at + numbers[k], numbers[k + 1], &a);
        else refuse_answer(m->reader);
    }
}

/* What is at an address of a variable; null where the reader doesn't answer. */
static const member *member_at(module *m, const symbol *s, u64 address) {
    u64 length = length_at(s, address);
    if (!map_find(&m->members.numbers, address, length)) ask_members(m, s, address);
    return FOUND(m->members, address, length);
}

/* "x", "x.head", "x[3]", "x+8"; of a name that isn't the only one "x~ADDRESS"; outside the
   program "lib.so:x". */
void symbol_name(u64 address, char *buffer, size_t size) {
    module *m = module_at(address);
    symbol *s = found_symbol(address);
    if (!s) {
        snprintf(buffer, size, "0x%lx", address);
        return;
    }
    const char *library = m == modules ? "" : basename(m->path), *colon = *library ? ":" : "";
    int cut_off = strlen(s->name) > 1000;
    int n = snprintf(buffer, size, "%.200s%s%.1000s", library, colon, s->name);
    if (s->is_twice || cut_off) n += snprintf(buffer + n, size - n, "~%lx", s->at - m->base);
    say_unread(m);
    const member *found = member_at(m, s, address);
    if (found) strncat(buffer + n, found->text, size - n - 1);
    else if (address > s->at) snprintf(buffer + n, size - n, "+%lu", address - s->at);
}

int is_of_other_type(u64 address) {
    symbol *s = found_symbol(address);
    const member *found = s ? member_at(module_at(address), s, address) : 0;
    return found && found->is_other;
}

int own_length(const char *name) {
    const char *end = strstr(name, "._M_");
    return end ? end - name : (int)strlen(name);
}

void write_own_name(FILE *to, const char *name) {
    int length = own_length(name);
    const char *of = strstr(name + length, " of ");
    fprintf(to, "%.*s%s", length, name, of ? of : "");
}

/* Is there a variable that is named as a type is? */
int is_variable(const char *name, size_t length) {
    u64 text[NAME_BYTES / sizeof(u64) + 1] = {0};
    answer yes;
    if (length >= sizeof text) return 0;
    memcpy(text, name, length);
    for (module *m = modules; m < modules + module_count; m++)
        if (m->reader && ask_one(m->reader, ASK_VARIABLE, text, length / sizeof *text + 1, &yes)) return 1;
    return 0;
}

/* The name that an answer has: returns the length of its type's. */
static size_t take_name(const answer *part, char name[NAME_BYTES], uint8_t *is_other) {
    u32 length = part->one;
    if (length > strlen(part->first) || strlen(part->first) >= NAME_BYTES) return 0;
    cleaned(strcpy(name, part->first));
    *is_other = part->one >> 32 == 1;
    return length;
}

/* Where a call's type isn't known it isn't asked for again: its blocks may be many. */
size_t name_in_block(u64 caller, u64 block_size, u64 offset, u64 length, char name[NAME_BYTES],
                     uint8_t *is_other) {
    static map untyped;
    inlined_frame *f = frames_of(caller);
    module *m = f && !f->in_system ? module_at(caller) : 0;
    answer part;
    if (!m || map_find(&untyped, caller, block_size)) return 0;
    say_unread(m);
    if (!ask_one(reader_of(m), ASK_BLOCK, (u64[]){caller - 1 - m->base, block_size, offset, length}, 4,
                 &part)) {
        map_number(&untyped, caller, block_size);
        return 0;
    }
    return take_name(&part, name, is_other);
}

size_t name_by_use(u64 caller, const u64 use[6], char name[NAME_BYTES], u64 *begin, u64 *size,
                   uint8_t *is_other) {
    module *m = module_at(caller);
    u64 asked[7] = {m ? caller - 1 - m->base : 0};
    answer part;
    memcpy(asked + 1, use, 6 * sizeof *use);
    if (!m || m->in_system || m->is_recorder || !ask_one(reader_of(m), ASK_USE, asked, 7, &part))
        return 0;
    *begin = part.two >> 32;
    *size = (u32)part.two;
    return take_name(&part, name, is_other);
}

int local_name(u64 function, u64 pc, u64 below, u64 above, u64 length, char *buffer, size_t size) {
    module *m = module_at(function);
    answer local;
    char own[200];
    if (!m) return 0;
    say_unread(m);
    if (!ask_one(reader_of(m), ASK_LOCAL, (u64[]){pc - 1 - m->base, below, above, length}, 4, &local))
        return 0;
    const char *inside = *local.second ? local.second : function_name(function - 1, own, sizeof own);
    snprintf(buffer, size, "%.*s of %.199s", (int)(size - sizeof own - 5), local.first, inside);
    cleaned(buffer);
    return 1;
}

/* ---- lines of code ---- */
static RARE u32 number_of(u64 caller) {
    if (nowhere.text) return map_find(&places.numbers, caller, 0);
    u32 number = INTERN(places, caller, 0);
    place_at(number)->caller = caller;
    return number;
}

/* A caller's number, mostly from a table of recent ones; once places are found, 0 of one that
   wasn't noted. */
static u32 caller_number(u64 caller) {
    enum { RECENT = 4096 };
    static struct { u64 caller; u32 number; } recent[RECENT];
    u64 at = (caller ^ caller >> 12) & (RECENT - 1);
    if (recent[at].caller != caller || !recent[at].number) {
        recent[at].caller = caller;
        recent[at].number = number_of(caller);
    }
    return recent[at].number;
}

void note_caller(u64 caller) { caller_number(caller); }

void note_caller_of(const entry *e) {
    int does_more = e->operation < OP_START || e->operation > OP_FREE;
    place_at(caller_number(e->caller))->does_more |= does_more;
}

/* The addresses of the callers in a module, sorted. */
static u64 *addresses_in(module *m, u64 *count) {
    u64 *found = zeroed(places.numbers.count + 1, sizeof *found);
    *count = 0;
    EACH_PLACE(p)                 /* the call, not where it returns to */
        if (p->caller && module_at(p->caller) == m) found[(*count)++] = p->caller - m->base - 1;
    qsort(found, *count, sizeof *found, by_number);
    return found;
}

/* "path:12", with the path as sources are named. */
static char *location_of(const char *path, u64 line) {
    char text[2 * MOST_TEXT];
    int length = snprintf(text, sizeof text, "%s:%lu", source_name(path), line);
    return copied(cleaned(length > PLACE_BYTES ? text + length - PLACE_BYTES : text));
}

/* A function's name without what the compiler adds for its parts and copies: "f.cold", "f(int)
   [clone .part.0]". */
static char *function_part(char *name) {
    static const char *const added[] = {".cold", ".part.", ".isra.", ".constprop.", ".lto_priv."},
        clone[] = " [clone ";
    for (size_t i = 0; i < sizeof added / sizeof *added; i++) {
        char *at = strstr(name, added[i]), *before = at ? at - strlen(clone) : 0;
        if (at) *(before > name && starts_with(before, clone) ? before : at) = 0;
    }
    return name;
}

static inlined_frame *frame_of(const module *m, const answer *a) {
    int is_named = a->two || !m->in_system;            /* else the name may be a neighbour's */
    u64 line = *a->second && a->two < UINT32_MAX ? a->two : 0;
    inlined_frame *f = zeroed(1, sizeof *f);
    *f = (inlined_frame){.function = is_named ? cleaned(function_part(copied(a->first))) : "", .line = line,
                         .path = line ? copied(a->second) : 0};
    if (line && !m->is_late) note_source(a->second);
    f->in_system = m->in_system;
    f->in_rust_library = line && in_rust_library(a->second);
    f->in_system_file = f->in_system || (line && in_system(a->second));
    return f;
}

/* The frames of some callers in a module, with the paths of their files. */
static void read_frames(module *m, const u64 *addresses, u64 count) {
    inlined_frame **next = 0;
    answer a;
    u64 number = 0, frames = 0;
    ask(reader_of(m), ASK_FRAMES, addresses, count);
    while (next_answer(m->reader, &a)) {
        int is_first = !next || a.one > number;
        frames = is_first ? 1 : frames + 1;
        if (a.one >= count || a.one < number || frames > MOST_INLINED) {
            refuse_answer(m->reader);
            return;
        }
        number = a.one;
        if (is_first) next = &place_at(map_find(&places.numbers, addresses[number] + m->base + 1, 0))->frames;
        *next = frame_of(m, &a);
        next = &(*next)->outer;
    }
}

/* A function's name with lambdas as symbols have them, where gcc's debug information has <lambda(int)>. */
static char *with_lambdas(const char *name) {
    char *text = copied(name);
    for (char *at = text; (at = strstr(at, "<lambda(")); at++) *at = *a_lambda;
    return text;
}

/* Names a lambda's frame as threads are named that run it; where it is inlined, by the functions of the C++
   library around it. */
static void name_lambda(inlined_frame *f) {
    char *text = with_lambdas(f->function), *found = own_lambda(text) ? lambda_among(text) : 0;
    int is_bare = !strcmp(f->function, "operator()");
    for (const inlined_frame *g = f->outer; is_bare && !found && g && g->in_system_file; g = g->outer) {
        free(text);
        text = with_lambdas(g->function);
        found = lambda_among(text);
    }
    if (found) f->function = found;
    free(text);
}

static void ask_for_lines(module *m) {
    u64 count, *addresses = addresses_in(m, &count);
    m->asked = 1;
    for (u64 k = 0; k < count; k += MOST_NUMBERS)
        read_frames(m, addresses + k, count - k < MOST_NUMBERS ? count - k : MOST_NUMBERS);
    free(addresses);
}

static void note_sources_of(module *m) {
    answer source;
    u64 count = 0;
    ask(reader_of(m), ASK_SOURCES, 0, 0);
    while (next_answer(m->reader, &source))
        if (count++ < MOST_SOURCES) note_source(source.first);
        else refuse_answer(m->reader);
}

static char *address_place(u64 caller) {
    char text[PLACE_BYTES];
    module *m = module_at(caller);
    if (m) snprintf(text, sizeof text, "%.900s+0x%lx", basename(m->path), caller - m->base - 1);
    else snprintf(text, sizeof text, "0x%lx", caller);
    return copied(cleaned(text));
}

/* A copy with ")|" before it and WIDE bytes behind. */
static char *line_end(const char *text) {
    char *copied = zeroed(strlen(text) + 2 + WIDE, 1);
    memcpy(copied, ")|", 2);
    return memcpy(copied + 2, text, strlen(text));
}

static int has_unseen;
static map hooked;                     /* functions, each by an address in it */

void note_hooked(u64 function) { map_number(&hooked, function, 0); }

/* All were noted before. */
static int is_hooked(module *m, u64 caller) {
    static map begins;                 /* of their symbols */
    static int is_known;
    for (u64 k = 0; !is_known && k < hooked.capacity; k++) {
        symbol *s = hooked.entries[k].value ? found_symbol(hooked.entries[k].a) : 0;
        if (s) map_number(&begins, s->at, 0);
    }
    is_known = 1;
    symbol *s = symbol_at(m, caller - 1);
    return !s || map_find(&begins, s->at, 0);
}

/* ---- functions that do no more than hand on to free, or from malloc: their callers do that ---- */
static map doing;                      /* all others, by their names */
static VECTOR(call_site) calls;

void note_call_site(u64 caller, u64 function) {
    static map met;
    if (map_adds(&met, caller, function)) *PUSH(calls) = (call_site){caller, function};
}

static inlined_frame *noted_frames(u64 caller) {
    return place_at(map_find(&places.numbers, caller, 0))->frames;
}

static int hands_on(const inlined_frame *f) {
    return *f->function && !map_find_bytes(&doing, f->function, strlen(f->function));
}

/* All functions that a caller is in. */
static void add_doing(const inlined_frame *f) {
    for (; f; f = f->outer) map_text(&doing, f->function);
}

static int is_own_frame(const inlined_frame *f) { return f->line && !f->in_system_file; }

/* Also what calls one of them, and what another module than the program's own calls. */
static void find_doing(void) {
    EACH_PLACE(p)
        if (p->does_more) add_doing(p->frames);
    for (u64 before = -1; before != doing.count;) {
        before = doing.count;
        for (u64 k = calls.count; k--;) {
            inlined_frame *from = noted_frames(calls.at[k].caller),
                          *to = outermost(noted_frames(calls.at[k].function));
            const module *m = module_at(calls.at[k].caller);
            if (!m || m->in_system || m->is_recorder) add_doing(to);
            if (!to || !hands_on(to)) add_doing(from);
        }
    }
}

/* Names the frames of a caller; its location is the first one outside of the system's headers, if it can be
   in a function that does more than hand on, else the first. */
static void find_place(place *p) {
    module *m = module_at(p->caller);
    inlined_frame *chosen = 0;
    int rank = 0;
    for (inlined_frame *f = p->frames; f; f = f->outer) {
        int own_rank = is_own_frame(f) ? 3 - hands_on(f) : f->line != 0;
        f->location = f->line ? location_of(f->path, f->line) : address_place(p->caller);
        if (is_own_frame(f)) name_lambda(f);
        if (own_rank > rank) chosen = f;
        if (own_rank > rank) rank = own_rank;
    }
    char *address = chosen ? 0 : address_place(p->caller);
    p->text = line_end(chosen ? chosen->location : address);
    free(address);
    p->length = strlen(p->text);
    p->is_own = m && !m->is_recorder && (chosen ? rank == 3 : !m->in_system);
    const inlined_frame *last = outermost(p->frames);
    p->is_unseen = last && last->in_rust_library && !is_hooked(m, p->caller);
    has_unseen |= p->is_unseen;
    if (p->frames) return;
    p->frames = zeroed(1, sizeof *p->frames);
    *p->frames = (inlined_frame){.function = "", .location = p->text};
    p->frames->in_system = p->frames->in_system_file = m && m->in_system;
}

/* The places of all callers whose module was asked, or that are in none. */
static void find_asked_places(void) {
    EACH_PLACE(p) {
        const module *m = p->text ? 0 : module_at(p->caller);
        if (!p->text && (!m || m->asked)) find_place(p);
    }
}

static int has_callers(const module *m) {
    EACH_PLACE(p)
        if (p->caller && module_at(p->caller) == m) return 1;
    return 0;
}

/* A library of the system whose lines are in a file of their own, and the recorder's, is late: it is asked
   when a frame of it is shown, and mostly none is. Its source files aren't the program's, so the names of
   those don't hang on it. */
void find_places(void) {
    answer yes;
    nowhere.text = line_end("");
    for (module *m = modules; m < modules + module_count; m++) {
        if (!m->in_system && !m->is_recorder) note_sources_of(m);
        m->is_late = m->is_recorder
            || (m > modules && m->in_system
                && !(has_callers(m) && ask_one(reader_of(m), ASK_OWN_LINES, 0, 0, &yes)));
        if (!m->is_late) ask_for_lines(m);
    }
    find_doing();
    find_asked_places();
}

static RARE place *place_of_late(place *p) {
    ask_for_lines(module_at(p->caller));
    find_asked_places();
    return p;
}

static inline place *found_place(u64 caller) {
    place *p = place_at(caller_number(caller));
    return p->text ? p : place_of_late(p);
}

/* The place of a caller that was noted. */
part place_of(u64 caller) {
    const place *p = found_place(caller);
    return (part){p->text, p->length};
}

part line_end_of(u64 caller) {
    part place = place_of(caller);
    return (part){place.at - 2, place.length + 2};
}

/* Numbered as they are asked for, so what an option makes shb-std note besides doesn't change them. */
u32 site_of(u64 caller) {
    static map sites;                  /* by locations */
    place *p = found_place(caller);
    if (!p->site) p->site = map_text(&sites, p->text);
    return p->site;
}

int is_unseen(u64 caller) { return has_unseen && found_place(caller)->is_unseen; }

int is_own_place(u64 caller) { return place_at(caller_number(caller))->is_own; }

inlined_frame *frames_of(u64 caller) { return found_place(caller)->frames; }

inlined_frame *outermost(inlined_frame *f) {
    while (f && f->outer) f = f->outer;
    return f;
}

/* By their symbols. */
int in_one_function(u64 caller, u64 other) {
    module *m = module_at(caller);
    if (!m || module_at(other) != m) return 0;
    symbol *s = symbol_at(m, caller - 1), *o = symbol_at(m, other - 1);
    if (!s || !o || s == o) return s && s == o;
    char *one = function_part(copied(s->name)), *two = function_part(copied(o->name));
    int same = !strcmp(one, two);
    free(one);
    free(two);
    return same;
}
