/* usage: hold_back RECORD OUT: writes a record as the recorder with cells would have left it, by the same code (runtime/cells.c). */
#define _GNU_SOURCE
#include <stdio.h>
#include <stdlib.h>
#include <string.h>
#include "cells.h"

enum { MOST_BLOCKS = 1 << 16, MOST_HELD = (1 << ORDER_BITS) - 1 };

static record *in, *out;
static uint64_t count, written, held_there;
static uint32_t serials[1 << 16], last_serial = 1 << 16;     /* of a thread with this number */
static uint64_t contexts[1 << 16];     /* that it is in */
static struct { uint64_t at, size; } blocks[MOST_BLOCKS];
static uint64_t block_count;

static void add(record r) {
    out[written++] = r;
    held_there = 0;
}

void put_late(record r, uint64_t word) {
    add((record){word & (IS_REPEATED | POSITIONS), word >> CONTEXT_AT | (uint64_t)OP_LATE << 48});
    add(r);
}

static enum operation operation_of(record r) { return r.what >> 48 & 63; }

static uint64_t size_of(uint64_t i) {
    uint64_t inside = in[i].what >> 54;
    int is_plain = operation_of(in[i]) == OP_READ || operation_of(in[i]) == OP_WRITE;
    if (inside == SIZE_FOLLOWS) return in[i + 1].where;
    return !is_plain ? inside : inside & IS_RANGE ? inside - IS_RANGE : 1ull << inside % (1 << LOGARITHM_BITS);
}

static uint64_t freed_bytes(uint64_t at) {
    for (uint64_t k = block_count; k-- > 0;)
        if (blocks[k].at == at) return blocks[k].size < 1024 ? blocks[k].size : 1024;
    return 0;
}

static uint64_t bytes_of(uint64_t i) {
    enum operation operation = operation_of(in[i]);
    if (operation == OP_FREE) return freed_bytes(in[i].where & LOW_48_BITS);
    if (operation >= OP_ATOMIC_LOAD && operation <= OP_ATOMIC_UPDATE) return size_of(i) % (1 << ATOMIC_SIZE_BITS);
    return operation <= OP_WRITE || operation == OP_ALLOC || operation == OP_START ? size_of(i) : 1;
}

static int is_range_held_quickly(uint64_t i, uint64_t bytes, uint64_t kind, uint64_t word) {
    uint64_t address = in[i].where & LOW_48_BITS, *words[MOST_CELLS];
    cell_use use = {what_of_use(in[i].what, address), kind};
    int count = word ? words_of_range(serials[in[i].where >> 48], use, address, address + bytes, words) : 0;
    for (int k = 0; k < count; k++) *words[k] = word_after(*words[k], word);
    held_there += count != 0;
    return count != 0;
}

/* As a quick hook holds it back. */
static int is_held_quickly(uint64_t i, uint64_t bytes, uint64_t kind, uint64_t word) {
    uint64_t address = in[i].where & LOW_48_BITS;
    int is_plain = operation_of(in[i]) == OP_READ || operation_of(in[i]) == OP_WRITE;
    int is_in_one = address / GRAIN == (address + bytes - 1) / GRAIN;
    if (is_plain && bytes && !is_in_one) return is_range_held_quickly(i, bytes, kind, word);
    cell *c = is_plain && is_in_one ? find_cell(address) : 0;
    uint16_t number = in[i].where >> 48;
    cell_use use = {what_of_use(in[i].what, address), c ? kind_in(c, in[i].what, kind, reader_of(serials[number], number)) : 0};
    uint64_t *held = c && word ? word_of_use(c, address, serials[number], number, use) : 0;
    if (held) *held = word_after(*held, word);
    held_there += held != 0;
    return held != 0;
}

/* The kind of a context is its number without the last bit. */
static int is_held_back(uint64_t i, uint64_t bytes) {
    uint64_t order = held_there + 1, context = contexts[in[i].where >> 48], kind = context >> 1 << KIND_AT;
    uint64_t word = held_there == MOST_HELD ? NO_POSITION : context << CONTEXT_AT | IS_REPEATED | written << ORDER_BITS | order;
    uint32_t serial = serials[in[i].where >> 48];
    if ((i + 2) % 3 && is_held_quickly(i, bytes, kind, word)) return 1;      /* as hooks, of which some are slow */
    int is_held = hold_back(serial, in[i], bytes, kind, word);
    held_there += is_held == IS_HELD;
    return is_held;
}

static void step(uint64_t i) {
    enum operation operation = operation_of(in[i]);
    uint64_t address = in[i].where & LOW_48_BITS;
    if (operation == OP_FORK) serials[address] = ++last_serial;
    if (operation == OP_CONTEXT) contexts[in[i].where >> 48] = address;
    if (operation == OP_ALLOC && block_count < MOST_BLOCKS) {
        blocks[block_count].at = address;
        blocks[block_count++].size = size_of(i);
    }
    if (is_held_back(i, bytes_of(i))) return;
    add(in[i]);
    if (in[i].what >> 54 == SIZE_FOLLOWS) add(in[i + 1]);
}

int main(int words, char **word) {
    static char header[HEADER_BYTES];
    FILE *file = words == 3 ? fopen(word[1], "rb") : 0;
    if (!file || fread(header, HEADER_BYTES, 1, file) != 1) return 2;
    fseek(file, 0, SEEK_END);
    count = (ftell(file) - HEADER_BYTES) / sizeof *in;
    fseek(file, HEADER_BYTES, SEEK_SET);
    in = calloc(count + 1, sizeof *in);
    out = calloc(64 * count + 1, sizeof *out);
    if (fread(in, sizeof *in, count, file) != count) return 2;
    for (uint32_t n = 0; n < 1 << 16; n++) serials[n] = n + 1;
    begin_cells(1ull << 28);
    for (uint64_t i = 0; i < count && in[i].what; i += 1 + (in[i].what >> 54 == SIZE_FOLLOWS)) step(i);
    FILE *to = fopen(word[2], "wb");
    return !to || fwrite(header, HEADER_BYTES, 1, to) != 1 || fwrite(out, sizeof *out, written, to) != written || fclose(to) ? 2 : 0;
}
