/* Where the commands of a sheet stand, and what an accepted sheet says. */
#ifndef SHEET_H
#define SHEET_H

#include "content.h"

#include <stdio.h>

/* The command bytes. */
enum sheet_byte {
    SHEET_HEAD = 0x11,
    SHEET_GIVE = 0x12,
    SHEET_BOUND = 0x13,
    SHEET_SHARE = 0x14,
    SHEET_PART = 0x15,
    SHEET_END = 0x16
};

/* The team of a GIVE that leaves its instrument in the pool. */
#define SHEET_POOL 0xFF

/* How many bytes the commands have, a set's 8 bytes included. */
#define SHEET_SET_SIZE 8
#define SHEET_HEAD_SIZE 4
#define SHEET_GIVE_SIZE 3
#define SHEET_BOUND_SIZE (1 + SHEET_SET_SIZE)
#define SHEET_SHARE_SIZE (3 + SHEET_SET_SIZE)
#define SHEET_PART_SIZE 3

/* The numbers of instruments and teams, which fix where each command stands. */
struct sheet_shape {
    size_t instruments;
    size_t teams;
};

/* The shape of the sheets of an accepted plan. */
struct sheet_shape sheet_shape(const struct content *plan);

/* The length of a sheet of this shape. */
size_t sheet_length(struct sheet_shape shape);

/* The offset of an instrument's GIVE. */
size_t sheet_give(size_t instrument);

/* The offset of BOUND. */
size_t sheet_bound(struct sheet_shape shape);

/* The offset of a team's SHARE. */
size_t sheet_share(struct sheet_shape shape, size_t team);

/* The total that HEAD states. */
unsigned sheet_total(const struct content *sheet);

/* The team that gets an instrument, or SHEET_POOL. */
uint8_t sheet_owner(const struct content *sheet, size_t instrument);

/* How many instruments a team holds; with SHEET_POOL, how many are in the pool. */
size_t sheet_count(const struct content *sheet, struct sheet_shape shape, size_t team);

/* The share that a team's SHARE states. */
unsigned sheet_share_stated(const struct content *sheet, struct sheet_shape shape, size_t team);

/* Prints the instruments a team holds, rising, a space before each. */
void sheet_print_held(FILE *out, const struct content *sheet, struct sheet_shape shape, size_t team);

#endif
