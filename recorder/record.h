/* The record: a file that the run-time library writes and the converter reads.

   HEADER_BYTES of text: the magic line, "command WORD WORD..", and a line "LOW HIGH BASE PATH" (hexadecimal
   numbers) for each module of code, in whose path LINE_END_IN_PATH stands for the end of a line; at ENDED_AT
   how the recording ended: "whole", or the reason why it stopped before the program, or nothing if the
   program was killed.  After "whole" are the number of entries and the sum of their entry_sum (hexadecimal),
   which show a cut or changed copy; not after an exec. Then records of 16 bytes in the order in which things
   happened, until one of zeros or the file's end. */
#pragma once
#include <stdint.h>

/* of a function that is called rarely: apart from its callers, whose usual way is short then */
#define RARE __attribute__((noinline))
#define ALWAYS_INLINE static inline __attribute__((always_inline))

#define ANY_RECORD "shb-record "
#define RECORD_MAGIC ANY_RECORD "12\n"
#define LINE_END_IN_PATH 1
#define HEADER_BYTES 65536
#define ENDED_BYTES 256
#define ENDED_AT (HEADER_BYTES - ENDED_BYTES)
#define ENDED_WHOLE "whole"
#define LOW_48_BITS 0xffffffffffffull
/* no program's address: descriptor D is at 16 D above it, its data 8 further */
#define FIRST_DESCRIPTOR (1ul << 47)
/* so many sets of held locks tell an access from its repeats; further ones do by how many locks they have */
#define SETS_APART 64
/* at this bit: semaphores (1) and queues (2) of System V, queues of POSIX (3); by numbers as descriptors */
#define KIND_OF_OBJECT 40
/* such a size or a greater one stands in a record OP_SIZE after this one */
#define SIZE_FOLLOWS 1023
/* A read or write of 1, 2, 4, 8 or 16 bytes has in its place of the size the logarithm and its depth: it is
   made in so many functions, the outermost of the thread's context, or DEPTH_BEFORE, in all; any other one
   has IS_RANGE and its size, if this isn't greater. */
#define LOGARITHM_BITS 3
#define DEPTH_BEFORE 63
#define IS_RANGE 512
#define MAX_SIZE (1ull << 36)          /* of a range; as long a one is held in reserve, and not recorded */
/* that of one which is over is used again when there is no new one: each fork begins another thread */
#define THREAD_NUMBERS 65534
#define MOST_FRAMES 16384              /* of a thread; those further in aren't recorded */
#define CONTEXT_BITS 23                /* of the number of a context in which an access is held back */
#define PLACE_BITS 24                  /* of each of the two numbers of a record OP_PLACE */
/* so many bytes of a thread's name stand in a record OP_NAME, as in piece_of_name */
#define NAME_PIECE 12
#define HAS_ADDRESS 128                /* above the numbers of signals */
/* A position is before which entry (of this number, from 0), and which one of those that were held back
   there, from 1: ORDER_BITS. */
#define POSITION_BITS 40
#define ORDER_BITS 12
/* of a late access: an earlier one of the phase was held back, and forgotten */
#define IS_REPEATED (1ull << POSITION_BITS)
/* of an atomic access: the memory order stands above the size, as __ATOMIC_.., and above that IS_EXCHANGE of
   an exchange that changed the value */
#define ATOMIC_SIZE_BITS 5
#define IS_EXCHANGE (8 << ATOMIC_SIZE_BITS)

typedef struct {
    /* 48 bits: the address (of a fork or join: the other thread); 16: the thread */
    uint64_t where;
    /* 48 bits: the return address of the call; 6: the operation; 10: the size */
    uint64_t what;
} record;

/* A piece of a name, and an end; what is after the name is zeros. */
static inline void piece_of_name(record r, char piece[NAME_PIECE + 1]) {
    for (int k = 0; k < NAME_PIECE / 2; k++) {
        piece[k] = r.where >> 8 * k;
        piece[k + NAME_PIECE / 2] = r.what >> 8 * k;
    }
    piece[NAME_PIECE] = 0;
}

/* The sum of the entry with this number, from 0. */
static inline uint64_t entry_sum(uint64_t number, record r) {
    return (r.where ^ number << 20) * 0x9E3779B97F4A7C15u + (r.what ^ number) * 0xD6E8FEB86659FD93u;
}

enum operation {
    OP_NONE, OP_SIZE,
    OP_READ, OP_WRITE, OP_ATOMIC_LOAD, OP_ATOMIC_STORE, OP_ATOMIC_UPDATE,
    OP_FORK, OP_JOIN, OP_START, OP_ALLOC, OP_FREE,
    OP_LOCK_INIT, OP_LOCK, OP_UNLOCK, OP_READ_LOCK, OP_WRITE_LOCK, OP_RW_UNLOCK,
    OP_POST, OP_WAIT, OP_BARRIER_INIT, OP_ARRIVE, OP_DEPART,
    OP_USE,                            /* a use of an object that orders nothing */
    OP_DESTROY,                        /* the end of an object, or a second beginning */
    OP_FENCE,                          /* its size is the memory order */
    /* a context: the thread is in a function (its address), called from there, and in so many further out
       (the size), the outermost of its context before. The record's contexts are numbered from 1; in 0 a
       thread is in no function. Further out than the functions of a fiber are __tsan_create_fiber, which made
       it, and those that it was called in */
    OP_FRAME,
    /* of the record after it, a frame too: its caller is code without hooks, which the innermost function
       called from here */
    OP_WAY,
    /* of the frame after it: where its function lies on the stack. PLACE_BITS: how many bytes below the stack
       pointer of the function further out (of the outermost one: below the end of the thread's stack) its
       return address ends; above these: how many bytes below that its own stack pointer is. Where there is
       none it isn't known */
    OP_PLACE,
    OP_CONTEXT,                        /* the thread is in the context of this number (the address) */
    /* a piece of the name that the program gives the thread: the size is 0 in its first one, and NAME_PIECE
       in another right after it, if there is more */
    OP_NAME,
    /* the last record of a thread that a signal ends with the program: the size is its number, and
       HAS_ADDRESS where the kernel told the address. It was behind the caller that it came */
    OP_CRASH,
    /* the access that is in the next entry was made earlier: in the place of the address is its position, of
       POSITION_BITS, and perhaps IS_REPEATED, and of the caller its context, of CONTEXT_BITS. It may come
       again, with the same position */
    OP_LATE,
    OPERATIONS
};

static inline int is_plain(enum operation operation) { return operation == OP_READ || operation == OP_WRITE; }
static inline int is_atomic(enum operation operation) {
    return operation >= OP_ATOMIC_LOAD && operation <= OP_ATOMIC_UPDATE;
}
