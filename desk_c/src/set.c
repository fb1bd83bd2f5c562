/* Sets of numbers as bytes. */
#include "set.h"

/* Tells whether a set has a number, which its bytes reach. */
bool set_has(const uint8_t *set, size_t number)
{
    return (set[number / 8] >> number % 8 & 1) != 0;
}

/* Puts a number, which its bytes reach, into a set. */
void set_put(uint8_t *set, size_t number)
{
    set[number / 8] = (uint8_t)(set[number / 8] | 1U << number % 8);
}

/* Prints the numbers of a set of this many bytes, rising, a space before each. */
void set_print(FILE *out, const uint8_t *set, size_t size)
{
    for (size_t number = 0; number < 8 * size; number++)
        if (set_has(set, number))
            fprintf(out, " %zu", number);
}
