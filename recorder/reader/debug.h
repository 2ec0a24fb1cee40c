/* Debug information of a module, and its symbols, as libdw of the elfutils reads them. Addresses are those of
   the module's file. */
#include "../converter/tables.h"
#include "../converter/answers.h"
#include <ctype.h>
#include <dwarf.h>
#include <elfutils/libdw.h>
#include <elfutils/libdwfl.h>

enum { MOST_STEPS = 64, MOST_DIMENSIONS = 8 };

/* name: null until it is asked for */
typedef struct { u64 at, size; const char *linked; char *name; int is_twice, is_function; } symbol;

typedef struct { u64 low, high; Dwarf_Die at; } code;        /* of a function */
/* Its entry in the linked file, and where all of it is (-gsplit-dwarf); its functions, sorted, once one was
   asked for. */
typedef struct { Dwarf_Die linked, whole; VECTOR(code) functions; int is_indexed; } unit;
typedef struct { u64 low, high, unit; } span;
/* "Account", ".balance"; null where there is no such type. is_other: as of a text */
typedef struct { char *type, *rest; int is_met, is_other; } named_part;

/* a type without an address isn't known */
typedef struct { Dwarf_Die type; int is_of_bits, is_met; } allocation;
/* What an expression means: its type, the type of what a pointer in it points to last, and how far inside of
   that it lies, or at least if it is open (an index, bits). Is it a lock that a call gets? */
typedef struct {
    Dwarf_Die type, object;
    int has_object, has_member, is_open, is_element, is_lock, is_met;
    u64 offset;
} meaning;

typedef struct {
    const char *path;
    Dwfl *session;
    Dwfl_Module *file;
    Dwarf *dwarf;                      /* or null */
    u64 bias;                          /* what addresses are here more than in the debug information */
    VECTOR(unit) units;
    VECTOR(span) spans;                /* the code of units, sorted */
    VECTOR(symbol) symbols;            /* sorted */
    map names;                         /* of variables */
    /* are they read? Of variables: 1 those outside of functions, 2 all */
    int has_symbols, has_names, has_units, has_variables;
    /* units that are in other files, in object files; a file of another build */
    uint8_t lacks_split, is_in_objects, is_alien;
    INTERNED(Dwarf_Die) variables;     /* by their addresses */
    INTERNED(allocation) calls;
    INTERNED(named_part) parts;        /* what lies inside of what calls allocate */
    INTERNED(meaning) meanings;        /* of accesses */
    map global_names;                  /* with their units */
    VECTOR(Dwarf_Die) globals;         /* types; without an address where a name has none, or several */
} debug;

/* symbols.c */
char *demangled(const char *name);     /* a copy, also of a name that isn't mangled */
/* that is there, or the first one behind it, with its name; null where there is none */
const symbol *symbol_from(debug *d, u64 address);
int is_variable(debug *d, const char *name);          /* has one this name? */

/* Is it a name of Rust, Fortran or D, or one with a tag, as "x[abi:cxx11]"? The debug information has the
   program's own. */
int is_of_other(const char *linked);
char *told_name(const Dwarf_Die *of);  /* "next_id::last", of a function or variable; null if there is none */

/* debug.c */
debug *open_debug(const char *path);
Elf *own_file(debug *d);        /* the module's; null if it can't be read */
int has_section(Elf *elf, const char *name);                 /* also one that is compressed, .zdebug */
void read_units(debug *d);
const char *why_unread(debug *d);                     /* what of it isn't read, or null */
/* For each child of an entry. */
#define EACH_CHILD(e, in) \
    for (int its_more = !dwarf_child((in), (e)); its_more; its_more = !dwarf_siblingof((e), (e)))
/* The first child of an entry, and the next one: in a file that isn't what it should be, only those behind
   all met before, so that none is met often. */
int first_entry(Dwarf_Die *in, Dwarf_Die *e, const void **last);
int next_entry(Dwarf_Die *e, const void **last);
/* Gives each of these until `take` returns STOP; where it returns GO_IN, those inside before the next one. */
enum { STOP = -1, GO_ON, GO_IN };
typedef int (*take_entry)(void *to, Dwarf_Die *e);
void each_entry(Dwarf_Die *in, take_entry take, void *to);
/* that has this code; 0 where none is known */
int find_function(debug *d, u64 pc, Dwarf_Die *function);
int find_innermost(debug *d, u64 pc, Dwarf_Die *function);      /* also one that is inlined */
int find_unit(debug *d, u64 pc, Dwarf_Die *whole);    /* the same */
int has_number(Dwarf_Die *die, unsigned attribute, u64 *number);
int may_have_types(int tag);           /* may an entry have functions or types in it? */
/* The frames at a place in the code, the innermost first; what isn't known is null, and 0. */
typedef struct { char *function; const char *path; int line; } debug_frame;
/* 0: it isn't known */
int line_at(debug *d, u64 pc, const char **path, int *line, int *column);
int frames_at(debug *d, u64 pc, debug_frame *frames, int most);
void each_source(debug *d, void (*give)(const char *path));

/* linked.c */
void tell_kind(debug *d);
void tell_calls(debug *d);

/* members.c */
Dwarf_Die *variable_at(debug *d, u64 address);       /* null if there is none */
/* The same type without typedefs and qualifiers; 0 where there is none. */
int plain_type(Dwarf_Die *type);
/* to the entry that the attribute names; 0 if there is none */
int follow(Dwarf_Die *die, unsigned attribute);
int named_type(Dwarf_Die *of, Dwarf_Die *type);
int type_of(Dwarf_Die *of, Dwarf_Die *type);                 /* plain */
u64 size_of_type(Dwarf_Die *type);     /* in bytes; 0 where it isn't known */
/* The member, or the base class, that has all of these bytes, and where it begins; 0 where there is none. */
int member_with(Dwarf_Die *of, u64 offset, u64 length, Dwarf_Die *member, u64 *place);
int place_of_member(Dwarf_Die *member, u64 *place);
/* the same of a bit field, in bits */
int place_of_bits(Dwarf_Die *member, u64 *place, u64 *length);
int is_structure(Dwarf_Die *type);

/* A text that is written, and what is in it behind its last name: so many bytes. is_other: no integer, bool,
   enum or pointer. */
typedef struct { char *at; size_t room; u64 rest; int is_other; } text;
void add_name(text *to, const char *before, const char *name, u64 rest);
void add_rest(text *to);               /* "+4", of what isn't told by names */
void add_members(Dwarf_Die type, u64 offset, u64 length, text *to);
/* Adds what lies at an offset of the variable that is at an address, in so many bytes: ".head",
   "[3]", "+4"; returns whether that is `is_other`. */
int add_member(debug *d, u64 address, u64 offset, u64 length, char *buffer, size_t size);
/* The same of the local of a function that is at `pc`, that lies so many bytes below the end of its return
   address, and above its stack pointer, with its name before it; returns the name of the function that it is
   inlined from, or "", and null where no local is known. */
typedef struct { u64 pc, below, above, length; } place_of_local;
const char *add_local(debug *d, place_of_local at, char *buffer, size_t size);

static inline int is_of_word(char c) { return isalnum((unsigned char)c) || c == '_'; }
/* allocated.c: a line of a file; 0 if there is none that fits. What is in texts and behind `//`
   is blanked. */
enum { LINE_BYTES = 512 };
int read_line(const char *path, int number, char *line);
/* The type of so many bytes that a call in the program's own code allocates; 0 where that isn't certain. */
int type_by_text(debug *d, u64 pc, u64 size, Dwarf_Die *type);

/* blocks.c: what lies so far inside of a block of so many bytes that the call at `pc` allocated:
   "bank::Account.balance", or with its element "Account[3].balance". Returns the length of the type's name, 0
   if no type is certain. */
typedef struct { u64 pc, size, offset, length; } place_in_block;
/* Adds the name of a type or variable with those of what it is in: "bank::Account". 0 if it has none. */
int add_qualified_name(const Dwarf_Die *of, text *to);
size_t add_in_block(debug *d, place_in_block at, char *buffer, size_t size, int *is_other);
int has_type(debug *d, place_in_block at);            /* is that of the whole block certain? */

/* used.c: the object that an access in a block tells, and where it begins; 0 if that isn't certain. */
typedef struct { Dwarf_Die type; u64 begin, size; int is_element, is_other; } object_in_block;
int object_by_use(debug *d, place_in_block use, int writes, object_in_block *found);
meaning meaning_in_line(debug *d, u64 pc, int is_write, const char *line, int column);   /* from 1 */
/* blocks.c: the same of what that object has so far inside of the block, with the object; sets is_other */
size_t add_by_use(debug *d, object_in_block *object, u64 offset, u64 length, char *buffer,
                  size_t size);
