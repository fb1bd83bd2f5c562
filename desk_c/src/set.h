/* Sets of numbers as bytes: bit k for number k, counted from the low bit of the first byte. */
#ifndef SET_H
#define SET_H

#include <stdbool.h>
#include <stddef.h>
#include <stdint.h>
#include <stdio.h>

/* Tells whether a set has a number, which its bytes reach. */
bool set_has(const uint8_t *set, size_t number);

/* Puts a number, which its bytes reach, into a set. */
void set_put(uint8_t *set, size_t number);

/* Prints the numbers of a set of this many bytes, rising, a space before each. */
void set_print(FILE *out, const uint8_t *set, size_t size);

#endif
