/* Comparisons with the plans that are drawn one after the other. */
#ifndef COMPARE_H
#define COMPARE_H

#include <stddef.h>
#include <stdint.h>

/* How many plans were drawn, and how many comparisons did not hold. */
struct compared {
    size_t plans;
    size_t failures;
};

extern struct compared compared;

/* Prints a failure and counts it, unless two numbers are the same. */
void expect(const char *what, uint64_t wanted, uint64_t got);

#endif
