/* The events of the trace, and the names in them. */
#include "converter.h"

limits most = LIMITS_OF_SHB;
u64 events, written;
const char *cut_reason;
static u64 bytes;
static u32 thread_count;               /* that the trace names */

void begin_events(void) {
    events = written = bytes = 0;
    thread_count = 0;
    cut_reason = 0;
}

/* "_" stands for what would end a field or a line, and for the signs behind which names of locks and
   variables name a thread or a block. */
static void set_name(u32 t, const char *name) {
    snprintf(threads[t].name, THREAD_BYTES, "T%u%s%s", t, *name ? "." : "", name);
    for (char *p = threads[t].name; *p; p++)
        if ((unsigned char)*p < ' ' || strchr("|!@#", *p)) *p = '_';
    threads[t].name_length = strlen(threads[t].name);
    threads[t].is_named = *name != 0;
}

enum { FUNCTION_BYTES = 60 };

void name_thread(u32 t, u64 function) {
    char name[FUNCTION_BYTES];
    if (!t || threads[t].is_named) return;
    function_name(function, name, sizeof name);
    if (is_of_rust(name)) return;
    set_name(t, name);
}

void name_by_own(u32 t, const entry *e) {
    char name[FUNCTION_BYTES];
    u64 function = t && !threads[t].is_named ? own_function(e) : 0;
    if (function && own_function_name(function, name, sizeof name)) set_name(t, name);
}

void give_name(u32 t, const char *piece, int is_first) {
    char name[THREAD_BYTES], *begun = is_first ? "." : strchr(threads[t].name, '.');
    if (!t || !*piece || !begun) return;
    snprintf(name, sizeof name, "%s%s", begun + 1, piece);
    set_name(t, name);
}

part name_of_thread(u32 t) {
    thread_state *s = &threads[t];
    if (!s->name_length) s->name_length = snprintf(s->name, THREAD_BYTES, t ? "T%u" : "main", t);
    return (part){s->name, s->name_length};
}

const char *thread_name(u32 t) { return name_of_thread(t).at; }

int has_events(u32 t) { return threads[t].has_begun; }

int meets_thread(u32 t) {
    thread_count += !threads[t].is_met;
    threads[t].is_met = 1;
    return thread_count <= most.threads;
}

/* ---- names of variables ---- */
/* "file.c:12#3+8", or "stack.T1-0x20" */
static int write_block_name(char *to, u64 address, block *b) {
    if (b->stack) return sprintf(to, "stack.%s-0x%lx", thread_name(b->thread), b->at + b->size - address);
    part place = place_of(b->caller);
    b->named = 1;
    int length = sprintf(to, "%.*s#%u", TEXT(place), block_number(b));
    return address == b->at ? length : length + sprintf(to + length, "+%lu", address - b->at);
}

static int write_descriptor_name(char *to, u64 address) {
    static const char *const kinds[] = {"fd", "semaphores", "queue", "mqueue"};
    u64 place = address - FIRST_DESCRIPTOR;
    return sprintf(to, "%s%llu%s", kinds[place >> KIND_OF_OBJECT & 3], place % (1ull << KIND_OF_OBJECT) / 16,
                   address & 8 ? ".data" : "");
}

/* Debug information is searched for each once, while they are no more than this. */
static part symbol_of(u64 address) {
    enum { MOST_KEPT = 1 << 20 };
    static char name[NAME_BYTES];
    static INTERNED(part) kept;
    const part *known = FOUND(kept, address, 0);
    if (known) return *known;
    symbol_name(address, name, sizeof name);
    part found = {name, strlen(name)};
    if (kept.numbers.count == MOST_KEPT) return found;
    found.at = memcpy(zeroed(found.length + 1, 1), name, found.length);
    return *ENTRY(kept, address, 0) = found;
}

part variable_name(u64 address, u32 block_number) {
    static char name[NAME_BYTES];
    block *b = block_of(block_number);
    if (!b && address < FIRST_DESCRIPTOR) return symbol_of(address);
    return (part){name, b ? write_block_name(name, address, b) : write_descriptor_name(name, address)};
}

/* Short ones are mostly found in a table of recent ones. */
inline part piece_name(u32 number) {
    enum { RECENT = 1 << 16, SHORT = 59 };
    static struct { u32 piece; uint8_t length; char name[SHORT]; } recent[RECENT];
    static char long_name[NAME_BYTES + WIDE];
    u32 at = number & (RECENT - 1);
    if (recent[at].piece != number) {
        const piece *p = piece_of(number);
        part name = variable_name(p->at, p->block);
        if (name.length > SHORT) return (part){memcpy(long_name, name.at, name.length), name.length};
        recent[at].piece = number;
        recent[at].length = name.length;
        memcpy(recent[at].name, name.at, name.length);
    }
    return (part){recent[at].name, recent[at].length};
}

/* ---- events ---- */
/* The lines of the trace, until they are many. */
static char lines[1 << 16];
static u64 lines_bytes;

int is_unwritten;

void write_lines(void) {
    if (!is_unwritten) fwrite_unlocked(lines, 1, lines_bytes, stdout);
    lines_bytes = 0;
}

/* Texts with WIDE bytes that may be read are copied in pieces. */
static inline char *add_wide(char *to, part text) {
    memcpy(to, text.at, WIDE);
    if (text.length > WIDE) memcpy(to + WIDE, text.at + WIDE, text.length - WIDE);
    return to + text.length;
}

static inline char *add_line(char *to, part thread, const char *operation, part name, part line_end) {
    to = add_wide(to, thread);
    *to++ = '|';
    while (*operation) *to++ = *operation++;
    *to++ = '(';
    to = add_wide(to, name);
    to = add_wide(to, line_end);
    *to++ = '\n';
    return to;
}

static char *room_for_line(void) {
    if (lines_bytes > sizeof lines - SHB_LINE) write_lines();
    return lines + lines_bytes;
}

/* Keeps the line that stands behind the others. */
static void keep_line(const char *end, u32 stack) {
    bytes += end - (lines + lines_bytes);
    lines_bytes = end - lines;
    stack_of_event(stack);
    written++;
}

/* ---- spans ---- */
static void add_held(const char *operation, u32 t, const hold *h) {
    if (written == most.events) return;
    char *end = add_line(room_for_line(), name_of_thread(t), operation, lock_name(h->lock),
                         line_end_of(h->caller));
    keep_line(end, *operation == 'a' ? h->stack : 0);
}

static void meet_span(void) {
    u64 before = span_last;
    step_trace(events + 1);
    if (!before == !span_last || is_over()) return;
    if (span_last) note_part(written);
    each_held(add_held, span_last ? "acq" : "rel");
    if (!span_last) note_part(written);
}

void pass_event(u32 t) {
    if (is_over()) return;
    write_holds(t);
    meet_span();
    events++;
}

/* ---- an event ---- */
/* Between spans a trace has forks and joins, and the first event of a thread. */
static u64 write_event(u32 t, const char *operation, part name, u64 caller, u32 stack) {
    int is_first = !has_events(t), is_lock = *operation == 'a' || (*operation == 'r' && operation[1]);
    meet_span();
    if (written == most.events) {
        end_trace("at the limit of events");
        return 0;
    }
    meets_thread(t);
    threads[t].has_begun = 1;
    if (!span_last && (is_over() || !(is_first || *operation == 'f' || *operation == 'j'))) {
        events++;
        return 0;
    }
    part thread = name_of_thread(t), line_end = line_end_of(caller);
    char *line = room_for_line(), *end = add_line(line, thread, operation, name, line_end);
    if (!span_last && is_lock) end = add_line(line, thread, "begin", thread, line_end);
    if (bytes + (end - line) > most.bytes) {
        end_trace("at 1 GiB of text");
        return 0;
    }
    events++;
    keep_line(end, stack);
    note_written(events, written);
    return written;
}

void hold_event(u32 t, const char *operation, u32 lock, u64 caller, u32 stack) {
    write_event(t, operation, lock_name(lock), caller, stack);
}

void lock_event(u32 t, const char *operation, u32 lock, u64 caller) {
    if (is_over()) return;
    write_holds(t);
    hold_event(t, operation, lock, own_place(t, caller), stack_at(t, caller));
    threads[t].epoch++;
}

/* `name` may lie in a buffer that the writing of another event uses. */
u64 event(u32 t, const char *operation, part name, u64 caller) {
    char own_name[NAME_BYTES + THREAD_BYTES];
    if (is_over()) return 0;
    if (threads[t].unwritten) {
        name = (part){memcpy(own_name, name.at, name.length), name.length};
        write_holds(t);
    }
    u64 number = write_event(t, operation, name, own_place(t, caller), stack_at(t, caller));
    if (*operation != 'r' || operation[1]) threads[t].epoch++;
    return number;
}

/* It needs none of the locks that its thread holds. */
void bundle_event(u32 t, const char *operation, u32 number, u64 own) {
    char text[NAME_BYTES + 1 + WIDE];
    if (is_over()) return;
    if (!is_for_page()) {
        part name = piece_name(number);
        *(char *)mempcpy(text, name.at, name.length) = '~';
        write_event(t, operation, (part){text, name.length + 1}, own, 0);
    } else if (!has_events(t)) write_event(t, "begin", name_of_thread(t), own, 0);
    else {
        meet_span();
        events++;
    }
    threads[t].epoch += *operation == 'w';
}

/* Most events are accesses inside a span by a thread that is in the trace: they take less than others. */
inline u64 access_event(u32 t, const char *operation, u32 number, u64 caller, u64 own) {
    part name = piece_name(number);
    int has_room = events < span_last && written < most.events;
    int is_usual = has_room && !threads[t].unwritten && has_events(t);
    char *line = room_for_line(),
        *end = is_usual ? add_line(line, name_of_thread(t), operation, name, line_end_of(own)) : line;
    if (!is_usual || bytes + (end - line) > most.bytes) return event(t, operation, name, caller);
    events++;
    keep_line(end, stack_at(t, caller));
    note_written(events, written);
    threads[t].epoch += *operation == 'w';
    return written;
}
