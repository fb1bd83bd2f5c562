/* Comparisons with the plans that are drawn one after the other. */
#include "compare.h"

#include <inttypes.h>
#include <stdio.h>

struct compared compared;

/* Prints a failure and counts it, unless two numbers are the same. */
void expect(const char *what, uint64_t wanted, uint64_t got)
{
    if (wanted == got)
        return;
    compared.failures++;
    printf("plan %zu, %s: %" PRIu64 ", not %" PRIu64 "\n", compared.plans, what, got, wanted);
}
