/* What shb-std asks the reader of a module, and how it answers, over one socket.

   A request is its kind, and how many numbers follow. The reader takes all of it before it answers, so
   neither waits for the other. An answer is rows up to an END_ROW: two numbers, the lengths of two texts,
   then the texts. shb-std takes no other. */

enum request_kind {
    /* of a page: of each symbol in it, in order, where it begins, its size and SYMBOL_ flags; its name */
    ASK_SYMBOLS,
    /* of a name, as bytes with an end: a row where a variable's symbol has it */
    ASK_VARIABLE,
    /* of each address: a row for each frame, the innermost first: the address's number of these, and the
       line, or 0; the function, and the path */
    ASK_FRAMES,
    ASK_SOURCES,                       /* a row for each source file, at most MOST_SOURCES: its path */
    ASK_OWN_LINES,                     /* a row where the module's file itself has lines */
    ASK_UNREAD,                        /* a row where names may be missing: why */
    /* address of a variable, then offsets, each with a length: of each a row: 0, and 1 if the type there is
       known and no integer, bool, enum or pointer; what is there, as ".head" */
    ASK_MEMBER,
    /* pc, bytes below the end of its return address, and above its stack pointer, length: the local, and the
       function that it is inlined from, or "" */
    ASK_LOCAL,
    /* pc of the allocation's call, size, offset, length: a row where the type is certain: its name's length,
       or 0, and above 32 bits of this 1 if the type there is another one, as above; "Account.balance" */
    ASK_BLOCK,
    /* pc of an access, the block's size, the access's offset and length, whether it writes; an offset and
       length: a row if the access tells an object: as above, and where it begins << 32 | its size */
    ASK_USE
};
enum { MOST_NUMBERS = 4096, MOST_TEXT = 16384, MOST_INLINED = 64, MOST_SOURCES = 1 << 20, SYMBOL_PAGE = 4096,
       END_ROW = 0x7fffffff };
/* a flag, and how many bits of the second number they have */
enum { SYMBOL_IS_TWICE = 1, SYMBOL_FLAGS = 1 };
typedef struct { uint64_t kind, count; } request;
typedef struct { uint64_t one, two; uint32_t first, second; } row;
